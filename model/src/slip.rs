//! The plausible misreadings of 01 and of the change requests.

macro_rules! slips {
    ($($(#[doc = $about:literal])+ $name:ident,)*) => {
        /// A plausible misreading of 01 or of a change request.
        #[derive(Clone, Copy, Debug, PartialEq, Eq)]
        pub enum Slip {
            $($(#[doc = $about])+ $name,)*
        }

        impl Slip {
            pub const ALL: &'static [Slip] = &[$(Slip::$name,)*];

            pub fn about(self) -> &'static str {
                match self {
                    $(Slip::$name => concat!($($about),+).trim_start(),)*
                }
            }
        }
    };
}

impl Slip {
    /// Why no request can tell the slip from the right reading, where that is so.
    pub fn equivalent(self) -> Option<&'static str> {
        match self {
            Slip::ProbingLosesF => Some("F is the old failed without j, and j leaves probing anyway"),
            Slip::JoinOfItselfIsFive => Some("a node is not both dead and ready, so 2 comes first"),
            Slip::BadStepKept => Some("a bad step ends the check, and the table is not looked at again"),
            _ => None,
        }
    }

    /// Why few requests tell the slip, where that is so.
    pub fn rare(self) -> Option<&'static str> {
        match self {
            Slip::StepsTo999 | Slip::StepsTo1001 => Some("a rehearsal of 1,000 steps tells it once"),
            Slip::BadStepInByte => Some("a rehearsal of more than 255 steps tells it once"),
            _ => None,
        }
    }
}

slips! {
    // Distances and covers.

    /// Fall(x, y) is (y - x) mod N.
    FallTurned,
    /// Fall(x, x) is N, as in definition 1 of 001.
    FallOfEqualIsN,
    /// The signed distance turns back by half the ring, as in definition 1 of 001.
    HalfRingTurn,
    /// At M = 32 the difference stops at 0 and does not go round.
    FallStopsAt32,
    /// Of two at equal distance the one above the key is the nearer.
    TieAbove,
    /// Of two at equal distance the smaller id is the nearer.
    TieSmallerId,
    /// RightCover lacks its 1, so both of two equally near nodes cover.
    BothCover,
    /// LeftCover halves the distance upwards.
    CoverRoundsUp,
    /// Covers asks < in place of ≤.
    CoverStrict,
    /// LeftCover has a 1 too, so both of two equally near nodes cover.
    CoverLeftPast,
    /// RightCover halves the distance upwards.
    CoverRightRoundsUp,
    /// Covers goes down from RightCover to LeftCover.
    CoverExchanged,
    /// Covers looks past neighbours that are dead.
    CoverSkipsDead,
    /// Covers looks past neighbours that are in failed.
    CoverSkipsFailed,
    /// A lone node covers its own id only.
    LoneOwnId,
    /// A node with one empty side covers every key.
    LoneOneSide,

    // Leaf sets.

    /// Neighbours are the members at least distance, whatever the direction.
    NeighbourByDistance,
    /// The neighbour of an empty side is the far end of the other side.
    NeighbourFromOtherSide,
    /// Neighbours are looked for in both sides.
    NeighbourOfContent,
    /// Neighbours are the far ends of their sides.
    NeighbourFarthest,
    /// The left neighbour is that of the right side, and the other way round.
    NeighboursExchanged,
    /// Leftmost and rightmost by signed distance, as in 001.
    LeftmostSigned,
    /// Leftmost and rightmost are the near ends of their sides.
    LeftmostNearest,
    /// Adding does not leave the owner out.
    AddKeepsOwner,
    /// Adding keeps the L members at least distance on either side.
    AddByDistance,
    /// Adding gives each node to the side of its half of the ring only.
    AddHalfEach,
    /// Adding fills free room and never pushes a member out.
    AddOnlyToRoom,
    /// Adding keeps the L members that are farthest.
    AddFarthest,
    /// Adding keeps L + 1 members on each side.
    AddPastL,
    /// Adding drops the old members.
    AddReplaces,
    /// Adding keeps the sides apart: what is on the left is not on the right.
    AddLeftFirst,
    /// Adding adds to the left side only.
    AddLeftOnly,
    /// Overlap means that the sides are equal.
    OverlapIsEquality,
    /// Complete means that one side holds L, or the sides overlap.
    CompleteOneSide,
    /// Complete means that both sides hold L, overlap or not, as before T-02.
    CompleteOnlyFull,
    /// Complete means that the sides overlap, full or not.
    CompleteOnlyOverlap,
    /// Complete means that neither side is empty: short sides that share nothing too.
    CompleteNotEmpty,
    /// Empty means that one side holds none.
    EmptyOneSide,
    /// Empty means that left holds none.
    EmptyLeft,
    /// Empty means that right holds none.
    EmptyRight,

    // The next hop.

    /// The next hop is nearer by plain distance, without the tie.
    HopPlainDistance,
    /// The leaf branch takes the nearest other node, nearer than i or not.
    LeafNotNearer,
    /// The test for the leaf branch names the key.
    LeafTestNamesKey,
    /// The test for the leaf branch does not look at overlap.
    LeafTestWithoutOverlap,
    /// The test for the leaf branch asks < in place of ≤.
    LeafTestStrict,
    /// The test for the leaf branch has leftmost and rightmost exchanged.
    LeafTestExchanged,
    /// The leaf branch without a hop falls through to the routing branch.
    LeafFallsThrough,
    /// The leaf branch takes the first nearer node.
    LeafAnyNearer,
    /// The leaf branch looks at the routing set too.
    LeafTakesRouting,
    /// The routing branch is always taken.
    RoutingAlways,
    /// The routing branch takes the nearest other node, nearer than i or not.
    RoutingNotNearer,
    /// The routing branch takes the first nearer node.
    RoutingAnyNearer,
    /// The routing branch asks a strictly smaller distance, as 001 does.
    RoutingPlainDistance,
    /// The routing branch looks at the routing set alone.
    RoutingWithoutLeaves,
    /// Dead candidates are kept.
    HopToDead,
    /// The leaf branch keeps dead candidates.
    LeafToDead,
    /// The routing branch keeps dead candidates.
    RoutingToDead,
    /// Failed candidates are kept.
    HopToFailed,
    /// The leaf branch keeps failed candidates.
    LeafToFailed,
    /// The routing branch keeps failed candidates.
    RoutingToFailed,
    /// Candidates in probing are left out.
    HopNotToProbed,
    /// Candidates that wait are left out.
    HopNotToWait,
    /// Candidates that are not ready are left out.
    HopOnlyToReady,

    // The hops that a message carries (T-07).

    /// The hops are at most the number of nodes at a greater plain distance.
    BoundPlainDistance,
    /// The hops are at most the number of other nodes at no smaller plain distance.
    BoundWithTies,
    /// The hops are at most the number of nodes farther by falling from the key.
    BoundByFall,
    /// The hops are at most the number of ready nodes farther.
    BoundOfReady,
    /// The hops are at most the number of nodes farther that are not dead.
    BoundOfLive,
    /// The hops are at most the number of nodes nearer.
    BoundOfNearer,
    /// The hops are at most the number of nodes at least as far, the destination too.
    BoundWithItself,
    /// The hops are at most n - 1.
    BoundOfOthers,
    /// The hops are fewer than the nodes farther.
    BoundStrict,
    /// The hops are 0, or fewer than the nodes farther.
    BoundStrictAboveZero,
    /// The hops may be any number.
    BoundNone,
    /// The sixth word is 0, as before T-07.
    SixthWordZero,
    /// The sixth word is not looked at, and written as 0.
    SixthWordFree,
    /// The sixth word is read, and written as 0.
    HopsNotWritten,
    /// The sixth word is cut to 8 bits.
    HopsInByte,
    /// Another kind may have hops.
    HopsFreeElsewhere,
    /// A JoinRequest counts its hops.
    JoinsCountHops,
    /// A NoLegalRoute has the hops of its Lookup.
    NoRouteCarriesHops,
    /// A Lookup is issued with 1 hop.
    HopsFromOne,
    /// A forwarded Lookup keeps its hops.
    HopsNotCounted,
    /// A forwarded Lookup has 0 hops.
    HopsBeginAnew,
    /// Of two equal Lookups the waiting one gets the hops of the one that comes.
    ComingHopsKept,
    /// Of two equal Lookups the waiting one gets the larger number of hops.
    LargerHopsKept,
    /// Of two equal Lookups the waiting one gets the smaller number of hops.
    SmallerHopsKept,
    /// Of two equal Lookups the waiting one gets a hop more.
    MeetingCounted,
    /// A Lookup that differs in its hops only is added.
    EqualSeesHops,
    /// Lookup gives 3 only for a Lookup without hops.
    LookupSeesHops,
    /// Two Lookups that differ in their hops only are valid.
    ValidSeesHops,
    /// The listing adds the hops that a Lookup carries.
    ListAddsHops,

    // The pool.

    /// Equal messages are kept twice.
    EqualKept,
    /// Messages that differ in their sets or flag only are held equal.
    EqualWithoutSets,
    /// Messages that differ in their flag only are held equal.
    EqualWithoutFlag,
    /// Messages that differ in their routing set only are held equal.
    EqualWithoutRouting,
    /// Messages that differ in their failed only are held equal.
    EqualWithoutFailed,
    /// Messages that differ in their destination only are held equal.
    EqualAnywhere,
    /// Of two equal messages the new one stays, at the end.
    EqualMovesToEnd,
    /// Messages are added at the front.
    AddAtFront,
    /// Removing puts the last message into the gap.
    RemovalSwaps,
    /// What a Take adds goes where its message was.
    AddedAtGap,
    /// The message taken stays.
    TakenStays,
    /// 6 is judged before the removal.
    SixBeforeRemoval,
    /// 6 counts additions that meet an equal.
    SixCountsEqual,
    /// 6 is given at 256 messages.
    SixAt255,
    /// A full pool takes as many as fit, and the rest are dropped.
    SixDropsRest,
    /// A full pool gives 6 before 2 to 5, but for Take.
    FullPoolFirst,

    // The actions other than Take.

    /// A key out of range is taken modulo N.
    KeyWraps,
    /// A key is cut to 32 bits.
    KeyCut,
    /// A slot is cut to 8 bits.
    SlotCut,
    /// A slot is taken modulo n.
    SlotWraps,
    /// A place is cut to 32 bits.
    PlaceCut,
    /// 2 is given before 1 for a seed or partner out of range.
    TwoBeforeOne,
    /// 5 is given for a seed or partner out of range.
    PartnerOutIsFive,
    /// Places are counted from 1.
    PlacesFromOne,
    /// Lookup asks for a ready node.
    LookupNeedsReady,
    /// Lookup gives 2 at a dead node.
    LookupNotAtDead,
    /// Lookup gives 3 if the key's lookup waits anywhere.
    LookupWaitsAnywhere,
    /// Lookup that waits already is done and adds nothing.
    LookupAgainDone,
    /// Lookup adds nothing where the node covers the key.
    LookupCoveredDone,
    /// Join gives 3 before 2.
    JoinThreeBeforeTwo,
    /// Join gives 4 before 3.
    JoinFourBeforeThree,
    /// Join gives 4 before 2.
    JoinFourBeforeTwo,
    /// Join gives 3 only for a request that waits at the same seed.
    JoinWaitsAtSeed,
    /// Join gives 3 only for an equal message.
    JoinWaitsEqual,
    /// Join gives 3 for any request that waits at the seed.
    JoinWaitsOfAnyone,
    /// Join takes a node that waits.
    JoinFromWait,
    /// Join takes a seed that is ok.
    JoinSeedOk,
    /// Join takes a seed that is not dead.
    JoinSeedLive,
    /// Join takes any leaf set.
    JoinAnyLeafSet,
    /// Join leaves the node dead.
    JoinStaysDead,
    /// Join makes the node ok.
    JoinToOk,
    /// Join sends the node's routing set.
    JoinCarriesRouting,
    /// Join sends the node itself as routing set.
    JoinCarriesItself,
    /// Join sets the routing set to the node itself.
    JoinResetsRouting,
    /// Join empties probing, failed, lease and grant.
    JoinEmptiesSets,
    /// Join at oneself is refused as 5.
    JoinOfItselfIsFive,
    /// RequestLease gives 4 before 2.
    RequestFourBeforeTwo,
    /// RequestLease also from a ready node.
    RequestWhenReady,
    /// RequestLease also from a node that waits.
    RequestWhenWait,
    /// RequestLease also to neighbours in lease.
    RequestAlways,
    /// RequestLease sends to the right neighbour first.
    RequestRightFirst,
    /// RequestLease never sends to the node itself.
    RequestNotItself,
    /// RequestLease sends to the left neighbour only.
    RequestLeftOnly,
    /// RequestLease sends to the right neighbour only.
    RequestRightOnly,
    /// RequestLease sends to neighbours that are not in grant.
    RequestUnlessGranted,
    /// RequestLease sends to every member of the leaf set.
    RequestToLeaves,
    /// RequestLease gives 3 where one of its requests waits.
    RequestAgainIsThree,
    /// LeaseExpired gives 5 before 2.
    LeaseFiveBeforeTwo,
    /// LeaseExpired also while waiting.
    LeaseExpiresAtWait,
    /// LeaseExpired not while ok.
    LeaseExpiresAtReady,
    /// LeaseExpired also for i = j.
    LeaseOfOwnExpires,
    /// LeaseExpired also where j is not in lease.
    LeaseAbsentExpires,
    /// LeaseExpired leaves j in lease.
    LeaseStays,
    /// LeaseExpired removes j from grant too.
    LeaseTakesGrant,
    /// LeaseExpired makes a ready node ok whoever j is.
    AnyExpiryDemotes,
    /// LeaseExpired makes a ready node ok for any member of its leaf set.
    MemberExpiryDemotes,
    /// LeaseExpired makes a ready node ok for the left neighbour only.
    LeftExpiryDemotes,
    /// LeaseExpired leaves a ready node ready.
    ExpiryKeepsReady,
    /// LeaseExpired makes a ready node wait.
    ExpiryToWait,
    /// GrantExpired gives 5 before 2.
    GrantFiveBeforeTwo,
    /// GrantExpired also while waiting.
    GrantExpiresAtWait,
    /// GrantExpired not while ok.
    GrantExpiresAtReady,
    /// GrantExpired also for i = j.
    GrantOfOwnExpires,
    /// GrantExpired also where j is not in grant.
    GrantAbsentExpires,
    /// GrantExpired leaves j in grant.
    GrantStays,
    /// GrantExpired removes j from lease too.
    GrantTakesLease,
    /// GrantExpired makes a ready node ok where j is a neighbour.
    GrantDemotes,
    /// GrantExpired does not ask whether i is in lease of j.
    GrantIgnoresLease,
    /// GrantExpired asks whether j is in lease of i.
    GrantLooksAtOwnLease,
    /// GrantExpired does not look at the lease of a dead j.
    GrantSparesDead,
    /// GrantExpired gives 5 for a dead j.
    GrantOfDeadIsFive,

    // Take of kinds 1, 2 and 6.

    /// Lookups and join requests are also taken by a node that is ok.
    OkRoutes,
    /// Lookups and join requests are taken by any node that is not dead.
    LiveRoutes,
    /// A node that covers the key routes too where there is a next hop.
    HopBeforeCover,
    /// NoLegalRoute is not sent.
    NoRouteDropped,
    /// No legal route is refused as 5.
    NoRouteIsFive,
    /// NoLegalRoute for a join request goes to j.
    NoRouteToSender,
    /// NoLegalRoute for a join request names the slot of j.
    NoRouteNamesSlot,
    /// NoLegalRoute can be taken away.
    NoRouteTaken,
    /// NoLegalRoute gives 2 at a dead node.
    NoRouteTwoFirst,
    /// Kind 2 gives 5 before 2.
    JoinFiveBeforeTwo,
    /// Kind 2 gives 5 unless j waits.
    JoinOnlyFromWait,
    /// Kind 2 gives 5 for members other than i only.
    JoinContentWithoutI,
    /// Kind 2 never gives 5.
    JoinOfMember,
    /// Kind 2 gives 5 also for members of the routing set.
    JoinFiveForRouting,
    /// Kind 2 asks whether i covers the slot of j.
    JoinCoversSlot,
    /// Kind 2 adds j to the leaf set.
    JoinAddsSender,
    /// Kind 2 adds j to the routing set.
    JoinRoutesSender,
    /// JoinReply carries no routing set.
    ReplyRoutingEmpty,
    /// JoinReply carries i's routing set in place of m's.
    ReplyOwnRouting,
    /// JoinReply carries the leaf set with j added.
    ReplyWithSender,
    /// JoinReply carries i's routing set too.
    ReplyCarriesRouting,
    /// A forwarded JoinRequest does not gain i's routing set.
    ForwardKeepsRouting,
    /// A forwarded JoinRequest has i's routing set in place of m's.
    ForwardOwnRouting,
    /// A forwarded JoinRequest gains i itself too.
    ForwardGainsItself,

    // Deliver and Forward (T-05).

    /// Take still takes a Lookup.
    TakeOfLookup,
    /// Take gives 2 before 5 on a Lookup.
    TakeTwoBeforeFive,
    /// The pair gives 2 before 5 on another kind.
    PairTwoBeforeFive,
    /// The pair gives 5 by cover before 2.
    CoverBeforeStatus,
    /// Deliver forwards where the node does not cover the key.
    DeliverForwards,
    /// Deliver delivers whether or not the node covers the key.
    DeliverUncovered,
    /// Deliver also at a node that is ok.
    DeliverAtOk,
    /// Deliver takes a NoLegalRoute away.
    DeliverOfNoRoute,
    /// Forward delivers where the node covers the key.
    ForwardDelivers,
    /// Forward routes whether or not the node covers the key.
    ForwardCovered,
    /// Forward also at a node that is ok.
    ForwardAtOk,
    /// Forward takes a JoinRequest too.
    ForwardOfJoin,
    /// Forward gives 5 where there is no legal route.
    ForwardNoRouteIsFive,

    // Where the hop came from (T-01).

    /// The letter is r for a node in both.
    ViaBothIsRouting,
    /// The letter is that of the branch.
    ViaOfBranch,
    /// The letter is l for a node of the left side only.
    ViaOfSide,
    /// The letter is l where the receiver's leaf set holds the sender.
    ViaOfReceiver,
    /// The letters are exchanged.
    ViaExchanged,
    /// There is no letter where the routed message meets its equal.
    ViaLostAtEqual,
    /// A routed JoinRequest has no letter.
    ViaNotOfJoins,
    /// A delivered Lookup has a letter.
    ViaOfDelivered,
    /// A JoinRequest that is answered has a letter.
    ViaOfReply,
    /// A NoLegalRoute has a letter.
    ViaOfNoRoute,
    /// The listing has one letter too few.
    ListLetterFewer,
    /// The listing has no `-` where hops is 0.
    ListWithoutDash,
    /// The listing has `-` in place of the letters of a lookup that sticks.
    ListStuckDash,
    /// The listing has the letter of the last routing only.
    ListLastLetter,
    /// The listing has the letters from last to first.
    ListLettersTurned,
    /// The listing has no header for the letters.
    ListHeaderOld,

    // Take of kind 3.

    /// Kind 3 gives 5 before 4.
    ReplyFiveBeforeFour,
    /// Kind 3 gives 4 before 2.
    ReplyFourBeforeTwo,
    /// Kind 3 gives 5 before 2.
    ReplyFiveBeforeTwo,
    /// Kind 3 never gives 4.
    ReplyAnyLeafSet,
    /// Kind 3 never gives 5.
    ReplyWhileProbing,
    /// Kind 3 only while waiting.
    ReplyOnlyWait,
    /// Kind 3 leaves failed as it is.
    ReplyKeepsFailed,
    /// Kind 3 adds the content without failed.
    ReplyAddsWithoutFailed,
    /// Kind 3 adds the owner only.
    ReplyAddsOwnerOnly,
    /// Kind 3 takes over m's sides.
    ReplyCopiesSides,
    /// Kind 3 leaves the owner out of the content.
    ReplyWithoutOwner,
    /// Kind 3 probes all of m's content.
    ReplyProbesAllTold,
    /// Kind 3 probes the owner only.
    ReplyProbesOwnerOnly,
    /// Kind 3 probes m's routing set too.
    ReplyProbesRouting,
    /// Kind 3 sends the old leaf set.
    ReplyProbesOldSet,
    /// Kind 3 sends the old failed.
    ReplyProbesOldFailed,
    /// Kind 3 makes the node ok.
    ReplyToOk,
    /// Kind 3 drops m's routing set.
    ReplyRoutingLost,
    /// Kind 3 does not add the content to the routing set.
    ReplyContentLost,
    /// Kind 3 drops the old routing set.
    ReplyRoutingReplaced,
    /// Probes are sent in falling slot order.
    ProbesFalling,
    /// Probes are sent in ring order from the node.
    ProbesFromOwner,

    // Take of kinds 4 and 5.

    /// Kinds 4 and 5 give 5 before 4.
    ProbeFiveBeforeFour,
    /// Kinds 4 and 5 give 5 before 2.
    ProbeFiveBeforeTwo,
    /// Kinds 4 and 5 give 4 before 2.
    ProbeFourBeforeTwo,
    /// Kinds 4 and 5 never give 4.
    ProbeFourNever,
    /// Kinds 4 and 5 are not taken while waiting.
    ProbeNotAtWait,
    /// Kind 4 is taken from i itself.
    ProbeFromItself,
    /// Kinds 4 and 5 give 4 for an empty leaf set whatever the status.
    ProbeFourAnyStatus,
    /// j stays in failed.
    SenderStaysFailed,
    /// F gains m's failed.
    FailedGainsTold,
    /// F gains P1.
    FailedGainsSuspects,
    /// j is added to the leaf set even if it is in it.
    SenderAddedAgain,
    /// j is not added to the leaf set.
    SenderNotAdded,
    /// j is not added to the leaf set where it is in failed.
    SenderNotAddedIfFailed,
    /// S is without F.
    SetLosesFailed,
    /// P1 is looked for in m's content.
    P1FromContent,
    /// P1 is empty.
    P1Empty,
    /// P1 is looked for in the old leaf set.
    P1FromOldSet,
    /// P1 is all of m's failed.
    P1AllTold,
    /// P2 enters the leaf set at once.
    P2AtOnce,
    /// P2 is empty.
    P2Empty,
    /// P2 is all of m's content that is not in S.
    P2AllTold,
    /// P2 is what is not in the old leaf set.
    P2MinusOldSet,
    /// m's failed is left out of m's content too.
    P2WithoutToldFailed,
    /// The old failed, with j, is left out of m's content.
    OldFailedLeftOut,
    /// F is left out after adding m's content, not before.
    FailedLeftOutAfter,
    /// Members of probing are probed again.
    ProbedAgain,
    /// Members of F are probed.
    FailedProbed,
    /// A node may probe itself, as in 001.
    ProbesItself,
    /// P is without j.
    SenderNotProbed,
    /// The routing set does not gain j.
    RoutingGainsNothing,
    /// The routing set gains all of m's content.
    RoutingGainsContent,
    /// The routing set gains P.
    RoutingGainsProbes,
    /// Probing loses its old members.
    ProbingReplaced,
    /// Probing does not gain P.
    ProbingGainsNothing,
    /// Kind 4 makes a node ok as kind 5 does.
    ProbeMakesOk,
    /// Kind 4 sends no reply.
    NoReply,
    /// The reply carries the old leaf set.
    ReplyCarriesOldSet,
    /// The reply carries the old failed.
    ReplyCarriesOldFailed,
    /// The reply carries an empty failed.
    ReplyCarriesNoFailed,
    /// Probes carry the old leaf set.
    ProbesCarryOldSet,
    /// Probes carry the old failed.
    ProbesCarryOldFailed,
    /// Probes carry an empty failed.
    ProbesCarryNoFailed,
    /// The reply is sent after the probes.
    ReplyAfterProbes,
    /// No probe is sent to j.
    NoProbeToSender,
    /// Every member of probing is probed.
    ProbesToAllProbing,
    /// Kind 5 is taken from anyone.
    ReplyFromAnyone,
    /// Kind 5 gives 5 for a j in failed.
    ReplyNotFromFailed,
    /// Kind 5 sends a reply.
    ReplyAnswered,
    /// Kind 5 leaves failed nodes in probing.
    ProbingKeepsFailed,
    /// Kind 5 takes F out of probing in place of the old failed.
    ProbingLosesF,
    /// Kind 5 leaves j in probing.
    ProbingKeepsSender,
    /// Kind 5 takes m's failed out of probing.
    ProbingLosesTold,
    /// Kind 5 empties failed when nothing is left to probe and the set is complete, as in 001.
    FailedEmptiedAtEnd,
    /// Kind 5 makes a node ok while it still probes.
    OkWhileProbing,
    /// Kind 5 makes a node ok from any status.
    OkFromAnyStatus,
    /// Kind 5 makes a node ok whatever its leaf set.
    OkAlways,
    /// Kind 5 judges the old leaf set for ok.
    OkJudgesOldSet,
    /// Kind 5 asks for full sides, overlap or not.
    OkOnlyFull,
    /// Kind 5 asks for overlap, complete or not.
    OkOnlyOverlap,
    /// Kind 5 judges probing without P for ok.
    OkJudgesOldProbing,
    /// Kind 5 makes a node ok only where failed is empty.
    OkNeedsNoFailed,
    /// Kind 5 makes a node ready in place of ok.
    OkIsReady,

    // Take of kinds 7 and 8.

    /// Kind 7 is taken with an empty leaf set.
    RequestToEmpty,
    /// Kind 7 gives 4 before 2.
    AskedFourBeforeTwo,
    /// Kind 7 is taken while waiting.
    AskedAtWait,
    /// Kind 7 is taken by a ready node only.
    AskedAtReady,
    /// Kind 7 gives 5 unless j is a neighbour.
    StrangerIsFive,
    /// Kind 7 sets the flag and does not keep the grant.
    GrantNotKept,
    /// Kind 7 grants to any member of the leaf set.
    GrantToMembers,
    /// Kind 7 grants to anyone, and flags neighbours only.
    GrantToAnyone,
    /// Kind 7 grants to anyone, and flags anyone.
    AnyoneIsGranted,
    /// Kind 7 grants to the left neighbour only.
    GrantLeftOnly,
    /// Kind 7 grants nothing to i itself.
    GrantNotToItself,
    /// Kind 7 grants nothing to a failed node.
    GrantNotToFailed,
    /// Kind 7 takes the grant of a stranger back.
    GrantTakenBack,
    /// Kind 7 always sets the flag.
    FlagAlwaysSet,
    /// Kind 7 never sets the flag.
    FlagNeverSet,
    /// Kind 7 sets the flag for anyone in grant.
    FlagOfGranted,
    /// Kind 7 sends the leaf set with j added.
    BroadcastWithSender,
    /// Kind 8 gives 5 before 4.
    BroadcastFiveBeforeFour,
    /// Kind 8 gives 4 before 2.
    BroadcastFourBeforeTwo,
    /// Kind 8 gives 5 before 2.
    BroadcastFiveBeforeTwo,
    /// Kind 8 is taken while waiting.
    BroadcastAtWait,
    /// Kind 8 never gives 4.
    BroadcastFourNever,
    /// Kind 8 gives 4 only for an empty leaf set.
    BroadcastFourIfEmpty,
    /// Kind 8 never gives 5.
    BroadcastFromItself,
    /// Kind 8 judges complete after adding.
    CompleteAfterAdding,
    /// Kind 8 adds failed nodes too.
    BroadcastAddsFailed,
    /// Kind 8 leaves the leaf set as it is.
    BroadcastAddsNothing,
    /// Kind 8 adds the owner only.
    BroadcastAddsOwnerOnly,
    /// Kind 8 leaves the owner out of the content.
    BroadcastWithoutOwner,
    /// Kind 8 takes j out of failed.
    BroadcastClearsFailed,
    /// Kind 8 adds m's content to the routing set.
    BroadcastGainsRouting,
    /// Kind 8 gains the lease of an old neighbour.
    LeaseFromOldNeighbour,
    /// Kind 8 gains the lease of anyone.
    LeaseFromAnyone,
    /// Kind 8 gains the lease without the flag.
    LeaseWithoutFlag,
    /// Kind 8 without the flag loses the lease of j.
    LeaseLostWithoutFlag,
    /// Kind 8 gains the lease of the left neighbour only.
    LeaseLeftOnly,
    /// Kind 8 loses the other leases with the gain.
    LeaseReplaced,
    /// Kind 8 judges the leases before the gain.
    ReadyBeforeGain,
    /// Kind 8 makes ready with one of the two leases.
    ReadyWithOneLease,
    /// Kind 8 makes ready without looking at the leases.
    ReadyWithoutLeases,
    /// Kind 8 makes ready only where the flag is set.
    ReadyOnlyWithFlag,
    /// Kind 8 makes ready only where j is a neighbour.
    ReadyOnlyByNeighbour,
    /// Kind 8 makes ready by the leases of the old neighbours, changed or not.
    ReadyByOldNeighbours,
    /// Kind 8 makes ready though a neighbour has just changed.
    ReadyWhenChanged,
    /// Kind 8 makes ready where the two neighbours changed places.
    ReadyWhenSwapped,
    /// Kind 8 makes ready where the left neighbour is the old one.
    ReadyWhenLeftSame,
    /// Kind 8 makes a ready node ok where the conditions fail.
    BroadcastDemotes,

    // Nodes that go away, and the repairs (T-03).

    /// NodeLeft only from ready, as in 001.
    LeftOnlyReady,
    /// NodeLeft only while more than L + 1 are ready, as in 001.
    LeftOnlyFromMany,
    /// NodeLeft makes the node wait.
    LeftWaits,
    /// NodeLeft leaves lease and grant as they are.
    LeftKeepsLeases,
    /// NodeLeft leaves the leaf set as it is.
    LeftKeepsLeaves,
    /// NodeLeft leaves failed as it is.
    LeftKeepsFailed,
    /// NodeLeft leaves the node in its routing set, as in 001.
    LeftRoutesItself,
    /// SuspectFaulty gives 5 before 2.
    SuspectFiveBeforeTwo,
    /// SuspectFaulty also while waiting.
    SuspectAtWait,
    /// SuspectFaulty not while ok.
    SuspectOnlyReady,
    /// SuspectFaulty only of a dead node, as in 001.
    SuspectOnlyDead,
    /// SuspectFaulty also of a node that is not in the content.
    SuspectOfAnyone,
    /// SuspectFaulty also of a node that is probed.
    SuspectOfProbed,
    /// SuspectFaulty also of a node that has failed.
    SuspectOfFailed,
    /// SuspectFaulty does not add j to probing.
    SuspectNotProbed,
    /// SuspectFaulty adds j to failed.
    SuspectIsFailed,
    /// SuspectFaulty sends no probe.
    SuspectInSilence,
    /// SuspectFaulty sends an empty failed.
    SuspectTellsNothing,
    /// ProbeTimeOut gives 5 before 2.
    TimeOutFiveBeforeTwo,
    /// ProbeTimeOut not while waiting.
    TimeOutNotAtWait,
    /// ProbeTimeOut only of a node that is dead, or waits with an empty leaf set, as in 001.
    TimeOutOnlyDead,
    /// ProbeTimeOut also of a node that is not probed.
    TimeOutOfAnyone,
    /// ProbeTimeOut leaves j in probing.
    TimeOutStaysProbed,
    /// ProbeTimeOut leaves j in lease.
    TimeOutKeepsLease,
    /// ProbeTimeOut takes j out of grant.
    TimeOutTakesGrant,
    /// ProbeTimeOut does not add j to failed.
    TimeOutNotFailed,
    /// ProbeTimeOut looks for j in lease in place of grant.
    TimeOutLooksAtLease,
    /// ProbeTimeOut takes j out of the leaf set though it is granted.
    TimeOutDespiteGrant,
    /// ProbeTimeOut leaves the status as it is.
    TimeOutStatusStays,
    /// ProbeTimeOut makes the node wait whoever j is.
    TimeOutAlwaysWaits,
    /// ProbeTimeOut takes no LSProbe out of the pool.
    TimeOutTakesNone,
    /// ProbeTimeOut takes one LSProbe out of the pool.
    TimeOutTakesOne,
    /// ProbeTimeOut takes the LSProbeReplies from i to j too.
    TimeOutTakesReplies,
    /// ProbeTimeOut takes the LSProbes of all nodes to j.
    TimeOutTakesOfAnyone,
    /// ProbeTimeOut takes the LSProbes of i to all nodes.
    TimeOutTakesToAnyone,
    /// DeclareDead gives 5 before 2.
    DeclareFiveBeforeTwo,
    /// DeclareDead also while waiting.
    DeclareAtWait,
    /// DeclareDead not while ok.
    DeclareOnlyReady,
    /// DeclareDead also of a node that has not failed.
    DeclareUnfailed,
    /// DeclareDead also of a node that is not in the content.
    DeclareStranger,
    /// DeclareDead also of a granted neighbour.
    DeclareDespiteGrant,
    /// DeclareDead of no granted member.
    DeclareNoneGranted,
    /// DeclareDead looks at the left neighbour only.
    DeclareLeftOnly,
    /// DeclareDead takes j out of the left side only.
    DeclareOneSide,
    /// DeclareDead leaves the status as it is.
    DeclareStatusStays,
    /// DeclareDead takes j out of failed.
    DeclareTakesFailed,
    /// DeclareDead takes j out of lease.
    DeclareTakesLease,
    /// DeclareDead takes j out of grant.
    DeclareTakesGrant,
    /// LSRepair gives 4 before 2.
    RepairFourBeforeTwo,
    /// LSRepair gives 5 before 4.
    RepairFiveBeforeFour,
    /// LSRepair also while ok.
    RepairAtOk,
    /// LSRepair also with one side empty.
    RepairOfOneSide,
    /// LSRepair also of a complete leaf set.
    RepairOfComplete,
    /// LSRepair gives 4 for full sides only, as before T-02.
    RepairBelowFull,
    /// LSRepair also while probing.
    RepairWhileProbing,
    /// LSRepair always probes both ends.
    RepairBothEnds,
    /// LSRepair probes the neighbours.
    RepairNearEnds,
    /// LSRepair probes the end of the side that is full.
    RepairEndsExchanged,
    /// LSRepair sends an empty failed.
    RepairTellsNothing,
    /// ResignNode gives 3 before 2.
    ResignThreeBeforeTwo,
    /// ResignNode gives 4 before 3.
    ResignFourBeforeThree,
    /// ResignNode gives 5 before 4.
    ResignFiveBeforeFour,
    /// ResignNode also while ok.
    ResignAtOk,
    /// ResignNode also to a node that is ok.
    ResignToOk,
    /// ResignNode never gives 3.
    ResignThreeNever,
    /// ResignNode gives 3 for a JoinReply to anyone.
    ResignThreeOfAnyone,
    /// ResignNode gives 3 for a JoinRequest of i.
    ResignThreeForRequest,
    /// ResignNode also with both sides.
    ResignOfBothSides,
    /// ResignNode only with an empty leaf set.
    ResignOnlyEmpty,
    /// ResignNode also while probing.
    ResignWhileProbing,
    /// ResignNode makes the node dead.
    ResignDies,
    /// ResignNode leaves lease and grant as they are.
    ResignKeepsLeases,
    /// ResignNode leaves failed as it is.
    ResignKeepsFailed,
    /// ResignNode leaves the routing set as it is.
    ResignKeepsRouting,
    /// ResignNode empties the routing set.
    ResignRoutesNothing,
    /// ResignNode sends the node itself as routing set.
    ResignCarriesItself,
    /// Recover gives 4 before 2.
    RecoverFourBeforeTwo,
    /// Recover gives 5 before 4.
    RecoverFiveBeforeFour,
    /// Recover looks at its own status only.
    RecoverOwnStatus,
    /// Recover while others are ok, though none is ready.
    RecoverAmongOk,
    /// Recover also from dead.
    RecoverAtDead,
    /// Recover also with both sides.
    RecoverOfBothSides,
    /// Recover also while probing.
    RecoverWhileProbing,
    /// Recover probes the neighbour.
    RecoverNearEnd,
    /// Recover probes all of the leaf set.
    RecoverProbesLeaves,
    /// Recover makes the node ok.
    RecoverIsOk,
    /// Recover sends an empty failed.
    RecoverTellsNothing,

    // The start.

    /// Start leaves lease and grant empty, as in figure 4.2 of 001.
    StartWithoutLeases,
    /// Start leaves lease empty.
    StartWithoutLease,
    /// Start leaves grant empty.
    StartWithoutGrant,
    /// Start gives the lease and grant of neighbours only.
    StartLeasesOfNeighbours,
    /// Start leaves the node out of its own lease and grant.
    StartLeaseNotOwn,
    /// Start leaves the node out of its own routing set.
    StartRoutingNotOwn,
    /// Start gives ready nodes a routing set of all ids.
    StartRoutingAll,
    /// Start gives dead nodes an empty routing set.
    StartDeadRouteNothing,
    /// Start gives dead nodes the routing set A.
    StartDeadRouteReady,
    /// Start gives dead nodes their own lease and grant.
    StartDeadLease,
    /// Start makes the others wait.
    StartOthersWait,
    /// Start makes members of A ok.
    StartOk,
    /// Start adds all ids to the leaf sets.
    StartAllLeaves,
    /// Start gives dead nodes a leaf set.
    StartDeadKnow,
    /// Start gives 10 before 8.
    StartTenBeforeEight,
    /// Start takes ids above the ring.
    StartIdsFree,
    /// Start takes ids that repeat.
    StartIdsRepeat,
    /// Start sorts its ids.
    StartIdsSorted,
    /// Start cuts M and L to 32 bits.
    StartNumbersCut,
    /// Start has M and L exchanged.
    StartLimitsExchanged,
    /// Start drops marks past the list.
    StartMarksDropped,
    /// Start takes an empty A.
    StartNoneReady,

    // Settled.

    /// Settled with waiting nodes.
    SettledWithWait,
    /// Settled with nodes that are ok.
    SettledWithOk,
    /// Settled without a ready node.
    SettledWhenAllDead,
    /// Settled without a dead node.
    SettledOnlyReady,
    /// Settled means neighbours among all listed nodes.
    SettledAmongListed,
    /// Settled looks at left neighbours only.
    SettledLeftOnly,
    /// Settled looks at right neighbours only.
    SettledRightOnly,
    /// Settled does not look at neighbours.
    SettledAnyNeighbours,
    /// Settled does not look at the neighbours of a node that is alone.
    SettledAloneAnyhow,
    /// Settled where one ready node has its neighbours.
    SettledByOne,
    /// Settled does not look at failed.
    SettledFailedFree,
    /// Settled asks for an empty failed.
    SettledFailedEmpty,
    /// Settled looks at every node's failed.
    SettledEveryFailed,
    /// Settled asks for no waiting message.
    SettledWithoutMessages,
    /// Settled asks for an empty probing.
    SettledWithoutProbing,
    /// Settled asks for the leases of the neighbours.
    SettledWithLeases,
    /// Settled asks for complete leaf sets.
    SettledWithComplete,
    /// Settled asks for leaf sets of ready nodes.
    SettledReadyLeaves,

    // The listing.

    /// The listing counts NoLegalRoute as a hop.
    ListCountsNoRoute,
    /// The listing counts the nodes visited.
    ListCountsNodes,
    /// The listing does not count the routing to a node that is not ready.
    ListLastHopFree,
    /// The listing lets lookups merge.
    ListMerges,
    /// The listing lets any node deliver.
    ListAnyStatus,
    /// The listing names the node where a lookup sticks.
    ListNamesStuck,
    /// The listing names slots.
    ListNamesSlots,
    /// The listing has the newest lookup first.
    ListFromLast,
    /// The listing is in the order of keys.
    ListByKey,
    /// The listing has each key once.
    ListOncePerKey,
    /// The listing has from and to exchanged.
    ListNamesExchanged,
    /// The listing has 0 hops for a lookup that sticks.
    ListStuckAtZero,
    /// The listing without lookups is empty.
    ListWithoutHeader,
    /// The listing follows join requests too.
    ListJoins,
    /// The listing prints its header before a refusal.
    RefusedAfterHeader,
    /// The listing of a refused file is its header.
    RefusedWithoutLine,

    // The file.

    /// A file shorter than its total gives 7.
    AnyShortIsSeven,
    /// A file of 32 bytes gives 7.
    HeaderAloneIsSeven,
    /// A header word out of range gives 10.
    HeaderIsTen,
    /// A wrong offset or total gives 8.
    OffsetIsEight,
    /// 9 is given before 8.
    NineBeforeEight,
    /// The last header word may be anything.
    LastWordFree,
    /// M = 32, L = 8 and n = 64 are too many.
    TopsRefused,
    /// 256 messages are too many.
    Count256Refused,
    /// More nodes than ids give 8.
    CrowdedIsEight,
    /// Bytes after the total are accepted.
    MoreBytesAccepted,
    /// A file that lacks its last messages is read without them.
    FewerBytesAccepted,
    /// The offset of the nodes is not looked at.
    NodeOffsetFree,
    /// The offset of the messages is not looked at.
    MessageOffsetFree,
    /// The total is not looked at.
    TotalFree,
    /// The header has L before M.
    HeaderLimitsExchanged,
    /// The header has the message count before n.
    HeaderCountsExchanged,
    /// The header has the offset of messages before that of nodes.
    HeaderOffsetsExchanged,
    /// A node has its status before its id.
    NodeIdExchanged,
    /// A node has right before left.
    NodeSidesExchanged,
    /// A node has probing before right.
    NodeRightExchanged,
    /// A node has failed before probing.
    NodeProbingExchanged,
    /// A node has routing before failed.
    NodeFailedExchanged,
    /// A node has lease before routing.
    NodeRoutingExchanged,
    /// A node has grant before lease.
    NodeLeaseExchanged,
    /// A message has its destination before its kind.
    MessageKindExchanged,
    /// A message has its node before its destination.
    MessageToExchanged,
    /// A message has its flag before its node.
    MessageNodeExchanged,
    /// A message has its owner before its flag.
    MessageFlagExchanged,
    /// A message has its owner last.
    MessageOwnerExchanged,
    /// A message has left before routing.
    MessageRoutingExchanged,
    /// A message has right before left.
    MessageSidesExchanged,
    /// A message has failed before right.
    MessageRightExchanged,
    /// A status above 3 is ready.
    StatusHighIsReady,
    /// A status above 3 is dead.
    StatusHighIsDead,
    /// Messages of kind 0 are valid.
    BlankAccepted,
    /// The owner of a probe's leaf set may differ from its node.
    OwnerNotNode,
    /// A flag above 1 counts as 1.
    FlagAnyNumber,
    /// A kind without a flag may have one.
    FlagFreeElsewhere,
    /// A kind without an owner may have one.
    OwnerFreeElsewhere,
    /// A kind without node or key may have one.
    NodeFreeElsewhere,
    /// A kind without a set may have one.
    SetsFreeElsewhere,

    // Validity.

    /// Two equal messages are valid.
    EqualAccepted,
    /// Equal messages are valid unless one comes after the other.
    EqualNeighboursOnly,
    /// Ids may repeat.
    IdsMayRepeat,
    /// Ids need not rise.
    IdsAnyOrder,
    /// An id or key may be 2^M.
    IdAtN,
    /// A carried key may be anything.
    CarriedKeyFree,
    /// Marks at n and above are valid.
    MarkPastN,
    /// A routing set may mark slots at n and above.
    MarkPastNInRouting,
    /// Lease and grant may mark slots at n and above.
    MarkPastNInLease,
    /// Probing and failed may mark slots at n and above.
    MarkPastNInFailed,
    /// Left and right may mark slots at n and above.
    MarkPastNInSides,
    /// A carried set may mark slots at n and above.
    MarkPastNCarried,
    /// A message may name the slot n.
    SenderPastN,
    /// A side may hold L + 1.
    SidePastL,
    /// The sides together may hold 2L.
    SidesTogether,
    /// A side may hold L - 1.
    SideAtL,
    /// A node may be in its own probing.
    SelfInProbing,
    /// A node may be in its own failed.
    SelfInFailed,
    /// A node may be in its own left and right.
    SelfInSides,
    /// A node may be in none of its own sets.
    SelfInNoSet,
    /// A carried leaf set may hold its owner.
    CarriedOwnerInSide,
    /// A carried leaf set may be larger than L.
    CarriedSidesFree,
    /// A probe may not report its sender as failed.
    SenderInFailed,
    /// A message to its own sender is not valid.
    SentToItself,

    // A rehearsal (T-09).

    /// A rehearsal has at most 999 steps.
    StepsTo999,
    /// A rehearsal may have 1,001 steps.
    StepsTo1001,
    /// A rehearsal may have any number of steps.
    StepsUnlimited,
    /// Bad steps are counted from 0.
    BadStepFromZero,
    /// The number of a bad step is cut to 8 bits.
    BadStepInByte,
    /// A bad step does not end the check.
    BadStepGoesOn,
    /// Steps after a bad start are looked at.
    BadStartGoesOn,
    /// A bad start is step 1.
    BadStartIsOne,
    /// The table after a bad step is kept.
    BadStepKept,
    /// A refused action is good if the stated file is that of the table before it.
    RefusedIsNoChange,
    /// A longer stated file is good if its first bytes are.
    StatedLonger,
    /// A stated file that is cut short is good.
    StatedShorter,
    /// The stated file is not looked at.
    StatedFree,
    /// A step of no action ends the check.
    MalformedIsBad,

    // Water records (T-13).

    /// Month 0 is in range.
    MonthZero,
    /// Month 13 is in range.
    MonthThirteen,
    /// The evapotranspiration may be any number.
    EvapotranspirationFree,
    /// The runoff may be any number.
    RunoffFree,
    /// The numbers of a record are cut to 32 bits.
    NumbersCut,
    /// An amount of 100,000 is out of range.
    AmountTopRefused,
    /// An amount of 100,001 is in range.
    AmountPastTop,
    /// A record's key may be 2^M.
    RecordKeyAtN,
    /// A record's key is taken modulo N.
    RecordKeyWraps,
    /// 15 is given before 14.
    FifteenBeforeFourteen,
    /// 16 is given before 15.
    SixteenBeforeFifteen,
    /// A table that is not settled takes records where a ready node covers the key.
    UnsettledTaken,
    /// At most 511 records are held.
    RecordsTo511,
    /// 513 records may be held.
    RecordsTo513,
    /// Copies count among the 512 records.
    CopiesTakeRoom,
    /// A full store gives 16 also for a key and month that it holds.
    NoRoomToReplace,
    /// The same key and month again is held beside the earlier one.
    RepeatAdded,
    /// The same key and month again leaves the earlier one.
    RepeatIgnored,
    /// The same key and month again stays where the earlier one is.
    RepeatKeepsHolder,
    /// The same key replaces the earlier record, whatever the month.
    MonthIgnored,
    /// The earlier record goes though the one of its key and month is refused.
    RefusedRepeatGoes,
    /// Records are held on when others begin.
    HeldAfterBegin,
    /// The holder gets a copy too.
    CopyAtHolder,
    /// A holder that is alone gets a copy of its own.
    LoneCopiesItself,
    /// Only the left neighbour gets a copy.
    CopyLeftOnly,
    /// Only the right neighbour gets a copy.
    CopyRightOnly,
    /// Every member of the holder's leaf set gets a copy.
    CopiesAtAllLeaves,
    /// Copies count in the sum.
    CopiesInSum,
    /// Copies count in the number of records.
    CopiesCounted,
    /// The sum is of the sizes of the changes.
    SumOfSizes,
    /// Runoff adds to the stored water.
    RunoffAdded,
    /// Evapotranspiration adds to the stored water.
    EvapotranspirationAdded,
    /// Rain is taken away from the stored water.
    RainTakenAway,

    // What waits for a node (T-06).

    /// The last message for the node is told in place of the first.
    LastForFirst,
    /// The place of the first message is counted from 1.
    FirstFromOne,
    /// A message waits for the node that its third word names.
    NamedForDestination,
    /// Only lookups wait for a node.
    OnlyLookupsWait,
    /// Nothing waits for a dead node.
    NoneForDead,
    /// Nothing waits for a node that is not ready.
    NoneUnlessReady,
    /// The blank places past the count are looked at.
    BlankPlacesWait,
    /// A node without a message is refused as 1.
    NoneIsRefused,
    /// The slot n may be asked for.
    PolledSlotAtN,
    /// Every slot below 64 may be asked for.
    PolledSlotTo64,
    /// The slot is cut to 32 bits.
    PolledSlotCut,
    /// 1 is given for a slot above 63 before the file is loaded.
    OneBeforeLoading,
}
