//! The branches of document 01's rules, counted while the model lays a board.

macro_rules! branches {
    ($($name:ident = $words:literal,)*) => {
        #[derive(Clone, Copy, Debug, PartialEq, Eq)]
        pub enum Branch { $($name,)* }

        /// Every branch with its name in words.
        pub const BRANCHES: &[(Branch, &str)] = &[$((Branch::$name, $words),)*];
    };
}

branches! {
    PortZero = "wire with a port 0",
    OneNode = "wire with one node at both ends",
    NoAnchor = "wire end without an anchor",
    Exec = "exec wire passed over",
    ExecIntoChip = "exec wire into a chip, taken",
    ExecFromWorthy = "exec wire from an Input, pin or storage, taken",
    InlineOnly = "inline-only end",
    Coerce = "Coerce source anchor",
    NoRow = "target anchor without a row",
    EntersChip = "wire that enters a chip",
    LeavesChip = "wire that leaves a chip",
    NestedChip = "wire end in a nested chip",
    OtherPage = "source anchor on another page",
    NoDemand = "group without a demand",
    NoMinY = "group on a page without min_y",
    OneRowWorthy = "one-row group with a lane by its source",
    OneRowCrosses = "one-row group with a lane because it crosses",
    LaneShared = "lane shared by two groups",
    SecondLane = "second lane opened",
    NotLaid = "group not laid",
    SourceUnplaced = "group laid without a placed source",
    StopShares = "stop takes the previous stop's x",
    LevelAtBase = "level at the stop's own x",
    LevelAbove = "level above the stop's own x",
    TakenOver = "level taken over",
    LeastLoaded = "least loaded level",
    LastResort = "last resort: base claimed",
    Dropped = "stop dropped",
    AllDropped = "every stop of a group dropped",
    ChainUp = "chain turned up",
    HeadPlaced = "head placed",
    HeadLost = "head lost",
    HeadElsewhere = "head of a source on another page",
    HeadAlone = "head without a stop",
    SourcePlaced = "source rerouter placed",
    SourceLost = "source rerouter lost",
    LinkPlaced = "link placed",
    LinkLost = "link lost",
    TapOnPort = "link lost, tap fed by the port",
    TapOnChain = "link lost, tap fed by the head or an earlier link",
    BrickShared = "stop shares the last kept one's brick",
    GateSide = "gate-side placed",
    GateSideLost = "gate-side lost",
    SameColumn = "two deliveries from one column",
    EqualWire = "wire equal to an earlier one delivered",
    FanIn = "second delivery to one port",
    Shadowed = "shadowed wire",
    CornerSuppressed = "corner: target suppressed",
    CornerInline = "corner: end inline-only or naming no node",
    CornerRotation = "corner: target not at rotation 1",
    CornerNoLine = "corner: end without a line",
    CornerTwoLines = "corner: two lines",
    CornerNoRow = "corner: end without a row",
    CornerTwoPages = "corner: two pages",
    CornerNotAbove = "corner: source not above",
    CornerNotRight = "corner: source not to the right",
    CornerLowest = "corner at the sink's x",
    CornerHigher = "corner at a higher level",
    CornerShared = "corner shared",
    CornerBlocked = "corner blocked",
    CornerNoMinY = "corner on a page without min_y",
    CornerCoerce = "corner with a Coerce end",
}

/// How often each branch was met.
#[derive(Clone, Debug)]
pub struct Counts(pub Vec<usize>);

impl Default for Counts {
    fn default() -> Self {
        Self(vec![0; BRANCHES.len()])
    }
}

impl Counts {
    pub fn met(&mut self, branch: Branch) {
        self.0[branch as usize] += 1;
    }

    pub fn met_if(&mut self, condition: bool, branch: Branch) {
        if condition {
            self.met(branch);
        }
    }

    pub fn of(&self, branch: Branch) -> usize {
        self.0[branch as usize]
    }

    pub fn add(&mut self, other: &Counts) {
        for (mine, theirs) in self.0.iter_mut().zip(&other.0) {
            *mine += theirs;
        }
    }
}
