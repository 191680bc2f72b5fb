//! The kinds of record, what each carries, and the maxima that belong to them.

/// Payments or debits.
#[derive(Clone, Copy, Debug, PartialEq, Eq)]
pub enum Group {
    /// Group 00.
    Payments,
    /// Group 10.
    Debits,
}

impl Group {
    pub fn from_code(code: &[u8; 2]) -> Option<Self> {
        match code {
            b"00" => Some(Self::Payments),
            b"10" => Some(Self::Debits),
            _ => None,
        }
    }

    pub const fn code(self) -> &'static [u8; 2] {
        match self {
            Self::Payments => b"00",
            Self::Debits => b"10",
        }
    }
}

/// The six transaction types.
#[derive(Clone, Copy, Debug, PartialEq, Eq)]
pub enum TransactionType {
    /// 0000, unchecked creditor payment.
    UncheckedCreditor,
    /// 0003, unchecked salary payment.
    UncheckedSalary,
    /// 0005, creditor payment.
    Creditor,
    /// 0008, salary payment.
    Salary,
    /// 1001, direct debit.
    Debit,
    /// 1002, unchecked direct debit.
    UncheckedDebit,
}

impl TransactionType {
    pub fn from_code(code: &[u8; 4]) -> Option<Self> {
        match code {
            b"0000" => Some(Self::UncheckedCreditor),
            b"0003" => Some(Self::UncheckedSalary),
            b"0005" => Some(Self::Creditor),
            b"0008" => Some(Self::Salary),
            b"1001" => Some(Self::Debit),
            b"1002" => Some(Self::UncheckedDebit),
            _ => None,
        }
    }

    pub const fn code(self) -> &'static [u8; 4] {
        match self {
            Self::UncheckedCreditor => b"0000",
            Self::UncheckedSalary => b"0003",
            Self::Creditor => b"0005",
            Self::Salary => b"0008",
            Self::Debit => b"1001",
            Self::UncheckedDebit => b"1002",
        }
    }

    pub const fn group(self) -> Group {
        match self {
            Self::UncheckedCreditor | Self::UncheckedSalary | Self::Creditor | Self::Salary => {
                Group::Payments
            }
            Self::Debit | Self::UncheckedDebit => Group::Debits,
        }
    }

    /// Unchecked items need a name record, and another party of seven digits;
    /// the others may not have a name.
    pub const fn is_unchecked(self) -> bool {
        matches!(self, Self::UncheckedCreditor | Self::UncheckedSalary | Self::UncheckedDebit)
    }
}

/// The variant of a batch header.
#[derive(Clone, Copy, Debug, PartialEq, Eq)]
pub enum Variant {
    /// Batch identification is blank.
    B,
    /// Batch identification is filled.
    C,
}

/// Production or test.
#[derive(Clone, Copy, Debug, PartialEq, Eq)]
pub enum TestCode {
    Production,
    Test,
}

impl TestCode {
    pub fn from_code(code: &[u8; 1]) -> Option<Self> {
        match code {
            b"P" => Some(Self::Production),
            b"T" => Some(Self::Test),
            _ => None,
        }
    }

    pub const fn code(self) -> &'static [u8; 1] {
        match self {
            Self::Production => b"P",
            Self::Test => b"T",
        }
    }
}

/// 0001 A. The file name is always the same and isn't carried.
#[derive(Clone, Copy, Debug, PartialEq, Eq)]
pub struct FileHeader {
    /// ddmmyy
    pub created: u32,
    pub sender: [u8; 5],
    pub identification: [u8; 4],
    pub duplicate: u8,
}

impl FileHeader {
    pub const FILE_NAME: &'static [u8; 8] = b"CLIEOP03";
}

/// 0010 B or C.
#[derive(Clone, Copy, Debug, PartialEq, Eq)]
pub struct BatchHeader {
    pub variant: Variant,
    pub group: Group,
    pub account: u64,
    pub sequence: u16,
    pub identification: [u8; 16],
}

impl BatchHeader {
    pub const CURRENCY: &'static [u8; 3] = b"EUR";
    pub const MAX_SEQUENCE: u16 = 9_999;
}

/// 0030 B.
#[derive(Clone, Copy, Debug, PartialEq, Eq)]
pub struct OrderingParty {
    pub name_code: u8,
    /// ddmmyy, or 0
    pub desired: u32,
    pub name: [u8; 35],
    pub test: TestCode,
}

/// 0100 A.
#[derive(Clone, Copy, Debug, PartialEq, Eq)]
pub struct Transaction {
    pub kind: TransactionType,
    /// cents
    pub amount: u64,
    pub payer: u64,
    pub beneficiary: u64,
}

impl Transaction {
    pub const MAX_AMOUNT: u64 = 45_378_021_608;
}

/// 9990 A.
#[derive(Clone, Copy, Debug, PartialEq, Eq)]
pub struct BatchTrailer {
    /// cents
    pub amount: u64,
    pub accounts: u64,
    pub items: u32,
}

/// What limits a batch as a whole.
pub struct Batch;

impl Batch {
    pub const MAX_TOTAL: u64 = 4_537_802_160_901;
    pub const MAX_ITEMS: u32 = 100_000;
    pub const MAX_ACCOUNTS: u64 = 9_999_999_999;
    pub const MAX_DESCRIPTIONS: u8 = 4;
}

/// Items and cents of the batches that are closed: those whose trailer was
/// accepted.
#[derive(Clone, Copy, Debug, Default, PartialEq, Eq)]
pub struct Totals {
    pub items: u64,
    /// cents
    pub amount: u64,
}

impl Totals {
    /// 9,999 batches of the most that one can have.
    pub const MAX_ITEMS: u64 = 999_900_000;
    pub const MAX_AMOUNT: u64 = 45_373_483_806_849_099;
}

/// A record read, with its fields.
#[derive(Clone, Copy, Debug, PartialEq, Eq)]
pub enum Record {
    FileHeader(FileHeader),
    BatchHeader(BatchHeader),
    FixedDescription([u8; 32]),
    OrderingParty(OrderingParty),
    Transaction(Transaction),
    PayerName([u8; 35]),
    PayerCity([u8; 45]),
    Reference([u8; 16]),
    Description([u8; 32]),
    BeneficiaryName([u8; 35]),
    BeneficiaryCity([u8; 45]),
    BatchTrailer(BatchTrailer),
    FileTrailer,
}

/// Which row of the record table a line is of.
#[derive(Clone, Copy, Debug, PartialEq, Eq)]
pub(crate) enum Kind {
    FileHeader,
    BatchHeader(Variant),
    FixedDescription,
    OrderingParty,
    Transaction,
    PayerName,
    PayerCity,
    Reference,
    Description,
    BeneficiaryName,
    BeneficiaryCity,
    BatchTrailer,
    FileTrailer,
}

impl Kind {
    const ALL: [Kind; 14] = [
        Kind::FileHeader,
        Kind::BatchHeader(Variant::B),
        Kind::BatchHeader(Variant::C),
        Kind::FixedDescription,
        Kind::OrderingParty,
        Kind::Transaction,
        Kind::PayerName,
        Kind::PayerCity,
        Kind::Reference,
        Kind::Description,
        Kind::BeneficiaryName,
        Kind::BeneficiaryCity,
        Kind::BatchTrailer,
        Kind::FileTrailer,
    ];

    /// Code and variant, columns 1 to 5.
    pub const fn code(self) -> &'static [u8; 5] {
        match self {
            Kind::FileHeader => b"0001A",
            Kind::BatchHeader(Variant::B) => b"0010B",
            Kind::BatchHeader(Variant::C) => b"0010C",
            Kind::FixedDescription => b"0020A",
            Kind::OrderingParty => b"0030B",
            Kind::Transaction => b"0100A",
            Kind::PayerName => b"0110B",
            Kind::PayerCity => b"0113B",
            Kind::Reference => b"0150A",
            Kind::Description => b"0160A",
            Kind::BeneficiaryName => b"0170B",
            Kind::BeneficiaryCity => b"0173B",
            Kind::BatchTrailer => b"9990A",
            Kind::FileTrailer => b"9999A",
        }
    }

    pub fn of_line(line: &[u8; 50]) -> Option<Self> {
        Self::ALL.into_iter().find(|kind| line.starts_with(kind.code()))
    }
}
