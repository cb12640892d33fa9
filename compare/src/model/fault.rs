//! Faults that can be planted into the independent program: the misreadings that document 01 warns of, and slips that a
//! test has to notice. A program with one of them must differ from the proved library; `compare faults` shows it.

/// The fault that is planted, if any.
#[derive(Clone, Copy)]
pub struct Plant(Option<Fault>);

impl Plant {
    pub const NONE: Plant = Plant(None);

    pub fn of(fault: Fault) -> Self {
        Plant(Some(fault))
    }

    pub(super) fn has(self, fault: Fault) -> bool {
        self.0 == Some(fault)
    }

    /// What is right, or what the fault takes for it where it is planted.
    pub(super) fn or<T>(self, right: T, fault: Fault, wrong: T) -> T {
        if self.has(fault) {
            wrong
        } else {
            right
        }
    }
}

/// The faults with what each does, said once: lists of faults, each list a constant of its own.
macro_rules! faults {
    ($($(#[$about:meta])* $list:ident { $($name:ident: $text:literal,)* })*) => {
        #[derive(Clone, Copy, Debug, PartialEq, Eq)]
        pub enum Fault { $($(#[doc = $text] $name,)*)* }

        impl Fault {
            $($(#[$about])* pub const $list: &[Fault] = &[$(Fault::$name),*];)*

            /// What the fault does.
            pub fn text(self) -> &'static str {
                match self { $($(Fault::$name => $text,)*)* }
            }
        }
    };
}

faults! {
/// Faults of the design, the sizes and the mapping.
MAPPING {
    FiftyOne: "the fifth held set is for 51, as table 1 prints",
    FillUnsorted: "a held row is not sorted after the addition modulo v",
    FillFromRowOne: "row i of a held design has i+1 added",
    FillLongerList: "a list longer than b·k is filled",
    FillStoresOnRefusal: "fill stores before it refuses",
    TallRowIsThree: "k above v is refusal 3",
    EqualKRefused: "k = v is refused",
    NinetyTwoGroups: "v = 92 is within the limits",
    NinetyGroups: "v = 91 is beyond the limits",
    ElevenInRow: "k = 11 is within the limits",
    NineInRow: "k = 10 is beyond the limits",
    LongerList: "a design list longer than b·k is accepted",
    PartsNotWhole: "only b is asked to be whole, not r",
    GroupNumberV: "group number v is accepted in a row",
    EqualNeighbours: "equal neighbours in a row are accepted",
    FourFromOne: "the place of refusal 4 counts rows from 1",
    FourLastRow: "the place of refusal 4 is the last such row",
    FiveBeforeFour: "refusal 5 is tested before 4",
    LastTwoPairs: "the last two pairs are not tested",
    PairMissing: "a pair that stands in no row is accepted",
    PairTwice: "a pair that stands in several rows is accepted",
    FiveTurned: "the place of refusal 5 is b·v+a",
    SixBeforeFive: "refusal 6 is tested before the design",
    NineDisks: "g = 9 is accepted",
    FewDisks: "g below k is accepted",
    ThirteenDisks: "g = 13 is refused",
    NoBytes: "u = 0 is accepted",
    UnitOneByteLonger: "u = 4097 is accepted",
    DiskBound: "disk number v·g is accepted",
    UnitBound: "unit number r·g is accepted",
    UserBound: "a user unit number one too high is accepted",
    ShiftLeft: "labels are shifted left",
    ShiftByRowAlone: "labels are shifted by i alone, the same at positions 1 and 2",
    OuterParityFirst: "the outer parity is at position 0",
    ParityInColumnJ: "diagonal j's parity is in column j",
    DiagonalsRunLeft: "diagonals run down to the left",
    InnerOfOuter: "the inner parity of the outer parity unit is forgotten: that of the data unit is named twice",
    OnePlaceAlways: "the map names the places of user unit 0 always",
    UserFromOne: "the way back numbers user units from 1",
    PositionInnermost: "user units are numbered with the position running fastest",
    PartsFromLastRow: "parts are counted from the design's last row upwards",
    DisksByColumn: "disks are numbered column by column",
    UnitsByRow: "units are numbered row by row",
    ColumnForLabel: "the way back names an outer parity by its column, not its label",
    InnerSetsForgotten: "the count of sets leaves out the inner sets",
    BytesWrap: "the array's bytes are counted in 32 bits",
}

/// Faults of the calls on the array.
ARRAY {
    UnitsAcrossDisks: "the buffer holds unit 0 of all disks, then unit 1 of all disks",
    FormatLastDisk: "format leaves the last disk",
    FormatMarks: "format leaves the marks",
    FormatHeals: "format does not test 8 and heals a mark of 2",
    SevenNoLimit: "7 without the limit: an array above 1,073,741,824 bytes is accepted",
    SevenLongerArray: "7 without a longer array: bytes beyond the last disk are ignored",
    SevenNoMarks: "7 without the length of the marks",
    EightBeforeSeven: "refusal 8 is tested before 7",
    EightHighest: "the place of refusal 8 is the highest disk",
    EightTwo: "a mark of 2 is accepted",
    ElevenBeforeTen: "refusal 11 is tested before 10",
    ElevenWraps: "offset and length are added in 64 bits and wrap",
    ElevenNarrow: "the offset is cut to 32 bits",
    ElevenAtEnd: "an empty range at offset u is refused",
    ElevenEmpty: "an empty range is accepted at any offset",
    TwelveBeforeEleven: "refusal 12 is tested before 11",
    TwelveLowest: "the place of refusal 12 is the lowest marked disk",
    TwelveDataAlone: "write asks for the mark of the data disk alone",
    ReadIgnoresMark: "read ignores the mark",
    ReadAsksFour: "read asks for the marks of all four disks",
    ReadFromStart: "read ignores the offset",
    ReadStoresOnRefusal: "read clears its buffer before it refuses",
    WriteNothing: "write stores nothing",
    WriteDataAlone: "write changes the data unit alone",
    WriteNoThird: "write leaves out the inner parity of the data unit",
    WriteNoFourth: "write leaves out the inner parity of the outer parity unit",
    WriteWrongDiagonal: "write changes the inner parity of another diagonal",
    WriteNewBytes: "write XORs the new bytes into the parities, not the difference",
    WriteCopies: "write stores the new bytes into the parities",
    WriteFromStart: "write changes the parities from their first byte on",
    WriteStoresOnRefusal: "write stores the data and then refuses by 12",
    AuditNone: "audit finds no bad set ever",
    AuditOne: "audit counts at most one bad set",
    AuditMore: "audit counts one bad set more than there are",
    AuditSkipsLast: "audit skips the last set",
    AuditLowestOff: "audit's number is one higher than the lowest",
    AuditHighest: "audit's number is the highest",
    AuditInnerFirst: "audit numbers a tuple's inner sets before its outer sets",
    AuditFirstByte: "audit looks at the first byte of each unit alone",
}

/// Faults of the plan.
PLAN {
    PlanDiskBound: "the plan accepts disk number v·g",
    FourteenBeforeNine: "refusal 14 is tested before 9",
    FourteenOneLess: "a plan list one number too short is accepted",
    FourteenTriples: "a plan list needs one number a triple",
    FourteenLonger: "a plan list longer than 3·r(g-1)k is refused",
    PlanStoresOnRefusal: "the plan clears its list before it refuses by 14",
    PlanClearsRest: "the plan clears the rest of its list",
    PlanOneMore: "a plan with a triple too many",
    PlanOneLess: "a plan with a triple too few",
    PlanItself: "the plan reads the unit that it restores",
    PlanTurned: "the members of a set come by position or row downwards",
    PlanBySource: "the triples come by their source",
    PlanUnitBeforeDisk: "a triple names the source unit before the source disk",
    PlanInnerFirst: "the plan restores every unit from its inner set",
    PlanCountsNumbers: "the plan's answer counts numbers, not triples",
}

/// Faults of rebuild.
REBUILD {
    RebuildInnerFirst: "a pass tries the inner set before the outer set",
    RebuildInnerAlone: "a pass tries the inner set alone",
    RebuildBlindPass: "a pass does not see what it restored",
    RebuildOnePass: "there is one pass",
    RebuildDownwards: "a pass visits the units downwards",
    RebuildColumnFirst: "a pass visits column, then row",
    RebuildFirstDisk: "the first lost disk is restored and of the others the marks are cleared alone",
    RebuildLastDisk: "the last lost disk is not restored",
    RebuildMarks: "rebuild leaves the marks",
    RebuildCountMore: "rebuild counts one unit more than it restored",
    RebuildCountNone: "rebuild counts no unit",
    RebuildStoresOnRefusal: "rebuild stores what it restored and then refuses by 13",
    RebuildClearsOnRefusal: "rebuild clears the marks and then refuses by 13",
    ThirteenHighest: "the place of refusal 13 is the highest incomplete tuple",
    ThirteenFromOne: "the place of refusal 13 counts tuples from 1",
    ThirteenByCount: "more than three lost disks are refused",
}

/// Faults of the plan printer.
PRINTER {
    PrinterTrims: "the printer reads a line with blanks around it",
    PrinterDoubledSpaces: "the printer reads doubled spaces",
    PrinterTabs: "the printer reads tabs",
    PrinterSigns: "the printer reads a sign",
    PrinterLeadingZero: "the printer does not read leading zeros",
    PrinterTenDigits: "the printer reads ten digits, modulo 2 to the 32",
    PrinterEightDigits: "the printer reads at most eight digits",
    PrinterCarriageReturn: "the printer reads CR LF",
    PrinterFirstLine: "the printer reads the first of several lines",
    PrinterFourthWord: "the printer reads a line with a fourth word",
    PrinterNeedsLineEnd: "the printer does not read a line without its end",
    PrinterSixFirst: "the printer tests 6 before 1",
}
}
