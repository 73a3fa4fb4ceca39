//! The table of known tags (document 01, "Dictionary"; document 02, Items 5, 8, 9 and 11; Book C-2, annex A).

/// Form of a value.
#[derive(Clone, Copy, Debug, PartialEq, Eq)]
pub enum Form {
    /// n: every nibble is a digit.
    Numeric,
    /// cn: digits from the left, and F from there to the end.
    CompressedNumeric,
    /// b: any bytes.
    Binary,
}

impl Form {
    /// Whether the nibbles of `value` are allowed in this form.
    #[inline]
    pub fn allows(self, value: &[u8]) -> bool {
        match self {
            Form::Binary => true,
            Form::Numeric => value.iter().all(|&byte| byte & 0x0F <= 9 && byte >> 4 <= 9),
            Form::CompressedNumeric => {
                let mut padding = false;
                value
                    .iter()
                    .flat_map(|&byte| [byte >> 4, byte & 0x0F])
                    .all(|nibble| match nibble {
                        0xF => {
                            padding = true;
                            true
                        }
                        0..=9 => !padding,
                        _ => false,
                    })
            }
        }
    }
}

/// Who may set an object.
#[derive(Clone, Copy, Debug, PartialEq, Eq)]
pub enum Setter {
    /// The start bytes.
    Start,
    /// The card.
    Card,
    /// The start bytes and the card.
    StartOrCard,
    /// The session itself.
    Session,
}

/// A set of templates.
#[derive(Clone, Copy, Debug, PartialEq, Eq)]
pub struct Templates(u8);

impl Templates {
    /// No template.
    pub const NONE: Templates = Templates(0);
    /// 70.
    pub const T70: Templates = Templates(1);
    /// 77.
    pub const T77: Templates = Templates(2);
    /// A5.
    pub const TA5: Templates = Templates(4);
    /// BF0C.
    pub const TBF0C: Templates = Templates(8);
    /// 6F.
    pub const T6F: Templates = Templates(16);

    /// The template of a tag alone, or none if no row names it.
    pub fn of_tag(tag: u32) -> Templates {
        match tag {
            0x70 => Templates::T70,
            0x77 => Templates::T77,
            0xA5 => Templates::TA5,
            0xBF0C => Templates::TBF0C,
            0x6F => Templates::T6F,
            _ => Templates::NONE,
        }
    }

    /// The templates of either set.
    pub fn and(self, other: Templates) -> Templates {
        Templates(self.0 | other.0)
    }

    /// Whether a template is in both sets.
    pub fn meets(self, other: Templates) -> bool {
        self.0 & other.0 != 0
    }
}

/// The answers in which a card's object may come.
#[derive(Clone, Copy, Debug, PartialEq, Eq)]
pub enum Answers {
    /// Every answer that is read.
    All,
    /// The answer to GENERATE AC only.
    Cryptogram,
    /// The answer to COMPUTE CRYPTOGRAPHIC CHECKSUM only.
    Checksum,
    /// The answers to these two only.
    Either,
    /// No answer: the object is not the card's.
    None,
}

/// One row of the dictionary.
#[derive(Clone, Copy, Debug)]
pub struct Row {
    /// The tag as a number.
    pub tag: u32,
    /// Least length of the value.
    pub least: u8,
    /// Greatest length of the value.
    pub most: u8,
    /// Form of the value.
    pub form: Form,
    /// Who may set it.
    pub setter: Setter,
    /// The templates in which the card may set it: one of them is directly around it.
    pub templates: Templates,
    /// The answers in which the card may set it.
    pub answers: Answers,
    /// Offset of its place in the store.
    pub place: usize,
}

impl Row {
    /// Whether the card may set it, in some template or in none.
    pub fn is_of_card(&self) -> bool {
        matches!(self.setter, Setter::Card | Setter::StartOrCard)
    }

    /// Whether the start bytes may set it.
    pub fn is_of_start(&self) -> bool {
        matches!(self.setter, Setter::Start | Setter::StartOrCard)
    }

    /// Whether a value has a length and nibbles that this row allows.
    #[inline]
    pub fn fits(&self, value: &[u8]) -> bool {
        (usize::from(self.least)..=usize::from(self.most)).contains(&value.len())
            && self.form.allows(value)
    }
}

macro_rules! dictionary {
    ($($object:ident $tag:literal $least:literal $most:literal $form:ident $setter:ident [$($template:ident)*] $answers:ident,)*) => {
        /// A known tag, by the name of its data object.
        #[derive(Clone, Copy, Debug, PartialEq, Eq)]
        #[repr(u8)]
        #[allow(missing_docs)]
        pub enum Object { $($object),* }

        impl Object {
            /// All objects, in rising order of the tag.
            pub const ALL: [Object; COUNT] = [$(Object::$object),*];

            /// The object of a tag, if the tag is known.
            pub fn of_tag(tag: u32) -> Option<Object> {
                match tag {
                    $($tag => Some(Object::$object),)*
                    _ => None,
                }
            }
        }

        /// Bytes of the store: one place for each tag, with room for its greatest length.
        pub const STORE_SIZE: usize = 0 $(+ 1 + $most)*;

        /// Number of known tags.
        pub const COUNT: usize = [$($tag),*].len();

        /// The rows, in rising order of the tag; `Object as usize` is the index.
        pub static ROWS: [Row; COUNT] = placed([$(Row {
            tag: $tag,
            least: $least,
            most: $most,
            form: Form::$form,
            setter: Setter::$setter,
            templates: Templates(0 $(| Templates::$template.0)*),
            answers: Answers::$answers,
            place: 0,
        }),*]);
    };
}

dictionary! {
    Label                          0x50      0  16 Binary            Card        [TA5]       All,
    Track1Data                     0x56      0  76 Binary            Card        [T70]       All,
    Track2                         0x57      0  19 Binary            Card        [T70]       All,
    Pan                            0x5A      0  10 CompressedNumeric Card        [T70]       All,
    ResponseFormat1                0x80      0 253 Binary            Card        []          All,
    InterchangeProfile             0x82      2   2 Binary            Card        [T77]       All,
    DfName                         0x84      5  16 Binary            Card        [T6F]       All,
    PriorityIndicator              0x87      1   1 Binary            Card        [TA5]       All,
    Cdol1                          0x8C      0 250 Binary            Card        [T70]       All,
    CvmList                        0x8E     10 250 Binary            Card        [T70]       All,
    CaKeyIndexCard                 0x8F      1   1 Binary            Card        [T70 T77]   All,
    IssuerKeyCertificate           0x90      0 248 Binary            Card        [T70 T77]   All,
    FileLocator                    0x94      4 248 Binary            Card        [T77]       All,
    VerificationResults            0x95      5   5 Binary            Session     []          None,
    TransactionDate                0x9A      3   3 Numeric           Start       []          None,
    TransactionType                0x9C      1   1 Numeric           Start       []          None,
    ExpirationDate                 0x5F24    3   3 Numeric           Card        [T70]       All,
    EffectiveDate                  0x5F25    3   3 Numeric           Card        [T70]       All,
    IssuerCountry                  0x5F28    2   2 Numeric           Card        [T70]       All,
    TransactionCurrency            0x5F2A    2   2 Numeric           Start       []          None,
    LanguagePreference             0x5F2D    2   8 Binary            Card        [TA5]       All,
    ServiceCode                    0x5F30    2   2 Numeric           Card        [T70 T77]   All,
    PanSequenceNumber              0x5F34    1   1 Numeric           Card        [T70]       All,
    TransactionCurrencyExponent    0x5F36    1   1 Numeric           Start       []          None,
    AccountType                    0x5F57    1   1 Numeric           Start       []          None,
    AcquirerIdentifier             0x9F01    6   6 Numeric           Session     []          None,
    AmountAuthorised               0x9F02    6   6 Numeric           Start       []          None,
    AmountOther                    0x9F03    6   6 Numeric           Start       []          None,
    UsageControl                   0x9F07    2   2 Binary            Card        [T70]       All,
    VersionCard                    0x9F08    2   2 Binary            Card        [T70]       All,
    VersionReader                  0x9F09    2   2 Binary            Start       []          None,
    IssuerActionDefault            0x9F0D    5   5 Binary            Card        [T70]       All,
    IssuerActionDenial             0x9F0E    5   5 Binary            Card        [T70]       All,
    IssuerActionOnline             0x9F0F    5   5 Binary            Card        [T70]       All,
    IssuerApplicationData          0x9F10    0  32 Binary            Card        [T77]       Cryptogram,
    IssuerCodeTableIndex           0x9F11    1   1 Numeric           Card        [TA5]       All,
    PreferredName                  0x9F12    0  16 Binary            Card        [TA5]       All,
    MerchantCategoryCode           0x9F15    2   2 Numeric           Session     []          None,
    MerchantIdentifier             0x9F16   15  15 Binary            Session     []          None,
    TerminalCountry                0x9F1A    2   2 Numeric           Start       []          None,
    TerminalIdentification         0x9F1C    8   8 Binary            Session     []          None,
    TerminalRiskManagement         0x9F1D    8   8 Binary            Session     []          None,
    InterfaceDeviceSerialNumber    0x9F1E    8   8 Binary            Session     []          None,
    Track1DiscretionaryData        0x9F1F    0  54 Binary            Card        [T70 T77]   All,
    Track2DiscretionaryData        0x9F20    0  16 CompressedNumeric Card        [T70 T77]   All,
    TransactionTime                0x9F21    3   3 Numeric           Start       []          None,
    PaymentAccountReference        0x9F24   29  29 Binary            Card        [T70 T77]   All,
    Cryptogram                     0x9F26    8   8 Binary            Card        [T77]       Cryptogram,
    CryptogramInformation          0x9F27    1   1 Binary            Card        [T77]       Cryptogram,
    IssuerKeyExponent              0x9F32    1   3 Binary            Card        [T70 T77]   All,
    TerminalCapabilities           0x9F33    3   3 Binary            Start       []          None,
    CvmResults                     0x9F34    3   3 Binary            Session     []          None,
    TerminalType                   0x9F35    1   1 Numeric           Start       []          None,
    TransactionCounter             0x9F36    2   2 Binary            Card        [T77]       Either,
    UnpredictableNumber            0x9F37    4   4 Binary            Start       []          None,
    Pdol                           0x9F38    0 240 Binary            Start       []          None,
    AdditionalCapabilities         0x9F40    5   5 Binary            Start       []          None,
    ApplicationCurrency            0x9F42    2   2 Numeric           Card        [T70]       All,
    ApplicationCurrencyExponent    0x9F44    1   1 Numeric           Card        [T70 T77]   All,
    IccKeyCertificate              0x9F46    0 248 Binary            Card        [T70 T77]   All,
    IccKeyExponent                 0x9F47    1   3 Binary            Card        [T70 T77]   All,
    AuthenticationTagList          0x9F4A    0 250 Binary            Card        [T70 T77]   All,
    IccDynamicNumber               0x9F4C    2   8 Binary            Card        []          All,
    LogEntry                       0x9F4D    2   2 Binary            Card        [TBF0C]     All,
    OfflineBalance                 0x9F50    6   6 Numeric           Card        []          All,
    Drdol                          0x9F51    0 250 Binary            Card        [T70]       All,
    TransactionCategory            0x9F53    1   1 Binary            Start       []          None,
    DsOdsCard                      0x9F54    0 160 Binary            Card        [T77]       All,
    Dsdol                          0x9F5B    0 250 Binary            Card        [T70]       All,
    DsRequestedOperatorId          0x9F5C    8   8 Binary            Start       []          None,
    CapabilitiesInformation        0x9F5D    3   3 Binary            Card        [TBF0C]     All,
    DsId                           0x9F5E    8  11 Numeric           Card        [TBF0C]     All,
    DsSlotAvailability             0x9F5F    1   1 Binary            Card        [T77]       All,
    Cvc3Track1                     0x9F60    2   2 Binary            Card        [T77]       All,
    Cvc3Track2                     0x9F61    2   2 Binary            Card        [T77]       Checksum,
    Pcvc3Track1                    0x9F62    6   6 Binary            Card        [T70]       All,
    PunatcTrack1                   0x9F63    6   6 Binary            Card        [T70]       All,
    NatcTrack1                     0x9F64    1   1 Binary            Card        [T70]       All,
    Pcvc3Track2                    0x9F65    2   2 Binary            Card        [T70]       All,
    PunatcTrack2                   0x9F66    2   2 Binary            Card        [T70]       All,
    NatcTrack2                     0x9F67    1   1 Binary            Card        [T70]       All,
    Udol                           0x9F69    0 250 Binary            Card        [T70]       All,
    UnpredictableNumberNumeric     0x9F6A    4   4 Numeric           Start       []          None,
    Track2Data                     0x9F6B    0  19 Binary            Card        [T70]       All,
    VersionReaderStripe            0x9F6D    2   2 Binary            Session     []          None,
    ThirdPartyData                 0x9F6E    5  32 Binary            Card        [T70 TBF0C] All,
    DsSlotManagement               0x9F6F    1   1 Binary            Card        [T77]       All,
    ProtectedEnvelope1             0x9F70    0 192 Binary            StartOrCard []          All,
    ProtectedEnvelope2             0x9F71    0 192 Binary            StartOrCard []          All,
    ProtectedEnvelope3             0x9F72    0 192 Binary            StartOrCard []          All,
    ProtectedEnvelope4             0x9F73    0 192 Binary            StartOrCard []          All,
    ProtectedEnvelope5             0x9F74    0 192 Binary            StartOrCard []          All,
    UnprotectedEnvelope1           0x9F75    0 192 Binary            StartOrCard []          All,
    UnprotectedEnvelope2           0x9F76    0 192 Binary            StartOrCard []          All,
    UnprotectedEnvelope3           0x9F77    0 192 Binary            StartOrCard []          All,
    UnprotectedEnvelope4           0x9F78    0 192 Binary            StartOrCard []          All,
    UnprotectedEnvelope5           0x9F79    0 192 Binary            StartOrCard []          All,
    MerchantCustomData             0x9F7C   20  20 Binary            Start       []          None,
    DsSummary1                     0x9F7D    8  16 Binary            Card        [T77]       All,
    MobileSupportIndicator         0x9F7E    1   1 Binary            Session     []          None,
    DsUnpredictableNumber          0x9F7F    4   4 Binary            Card        [T77]       All,
    PosCardholderInteraction       0xDF4B    3   3 Binary            Card        [T77]       All,
    DsInputCard                    0xDF60    8   8 Binary            Start       []          None,
    DsDigestH                      0xDF61    8   8 Binary            Session     []          None,
    DsOdsInfo                      0xDF62    1   1 Binary            Start       []          None,
    DsOdsTerm                      0xDF63    0 160 Binary            Start       []          None,
    DsSummary2                     0xDF8101  8  16 Binary            Card        []          All,
    DsSummary3                     0xDF8102  8  16 Binary            Card        []          All,
    BalanceBeforeGenAc             0xDF8104  6   6 Numeric           Start       []          None,
    BalanceAfterGenAc              0xDF8105  6   6 Numeric           Start       []          None,
    DsAcType                       0xDF8108  1   1 Binary            Start       []          None,
    DsInputTerm                    0xDF8109  8   8 Binary            Start       []          None,
    DsOdsInfoForReader             0xDF810A  1   1 Binary            Start       []          None,
    DsSummaryStatus                0xDF810B  1   1 Binary            Session     []          None,
    KernelId                       0xDF810C  1   1 Binary            Session     []          None,
    PostGenAcPutDataStatus         0xDF810E  1   1 Binary            Session     []          None,
    PreGenAcPutDataStatus          0xDF810F  1   1 Binary            Session     []          None,
    ProceedToFirstWrite            0xDF8110  1   1 Binary            Start       []          None,
    ReferenceControlParameter      0xDF8114  1   1 Binary            Session     []          None,
    ErrorIndication                0xDF8115  6   6 Binary            Session     []          None,
    UserInterfaceRequestData       0xDF8116 22  22 Binary            Session     []          None,
    CardDataInputCapability        0xDF8117  1   1 Binary            Session     []          None,
    CvmCapabilityRequired          0xDF8118  1   1 Binary            Session     []          None,
    CvmCapabilityNotRequired       0xDF8119  1   1 Binary            Session     []          None,
    DefaultUdol                    0xDF811A  3   3 Binary            Session     []          None,
    KernelConfiguration            0xDF811B  1   1 Binary            Start       []          None,
    MaxLifetimeTornRecord          0xDF811C  2   2 Binary            Session     []          None,
    MaxNumberTornRecords           0xDF811D  1   1 Binary            Session     []          None,
    StripeCvmCapabilityRequired    0xDF811E  1   1 Binary            Session     []          None,
    SecurityCapability             0xDF811F  1   1 Binary            Session     []          None,
    TerminalActionDefault          0xDF8120  5   5 Binary            Start       []          None,
    TerminalActionDenial           0xDF8121  5   5 Binary            Start       []          None,
    TerminalActionOnline           0xDF8122  5   5 Binary            Start       []          None,
    FloorLimit                     0xDF8123  6   6 Numeric           Start       []          None,
    TransactionLimit               0xDF8124  6   6 Numeric           Start       []          None,
    TransactionLimitOnDevice       0xDF8125  6   6 Numeric           Start       []          None,
    CvmRequiredLimit               0xDF8126  6   6 Numeric           Start       []          None,
    TimeOutValue                   0xDF8127  2   2 Binary            Session     []          None,
    IdsStatus                      0xDF8128  1   1 Binary            Session     []          None,
    OutcomeParameterSet            0xDF8129  8   8 Binary            Session     []          None,
    DdCardTrack1                   0xDF812A  0  56 Binary            Session     []          None,
    DdCardTrack2                   0xDF812B  0  11 CompressedNumeric Session     []          None,
    StripeCvmCapabilityNotRequired 0xDF812C  1   1 Binary            Session     []          None,
    MessageHoldTime                0xDF812D  3   3 Numeric           Session     []          None,
    HoldTimeValue                  0xDF8130  1   1 Binary            Session     []          None,
    MinGracePeriod                 0xDF8132  2   2 Binary            Session     []          None,
    MaxGracePeriod                 0xDF8133  2   2 Binary            Session     []          None,
    TerminalTimeCommand            0xDF8134  2   2 Binary            Session     []          None,
    TerminalTimeResponse           0xDF8135  2   2 Binary            Session     []          None,
    RelayAccuracyThreshold         0xDF8136  2   2 Binary            Session     []          None,
    RelayMismatchThreshold         0xDF8137  1   1 Binary            Session     []          None,
    TerminalRelayEntropy           0xDF8301  4   4 Binary            Session     []          None,
    DeviceRelayEntropy             0xDF8302  4   4 Binary            Card        []          All,
    DeviceMinRelayTime             0xDF8303  2   2 Binary            Card        []          All,
    DeviceMaxRelayTime             0xDF8304  2   2 Binary            Card        []          All,
    DeviceTimeResponse             0xDF8305  2   2 Binary            Card        []          All,
    MeasuredRelayTime              0xDF8306  2   2 Binary            Session     []          None,
    RrpCounter                     0xDF8307  1   1 Binary            Session     []          None,
}

/// Gives each row its place: a length byte and room for the greatest length.
const fn placed(mut rows: [Row; COUNT]) -> [Row; COUNT] {
    let mut place = 0;
    let mut i = 0;
    while i < COUNT {
        assert!(i == 0 || rows[i - 1].tag < rows[i].tag);
        assert!(rows[i].least <= rows[i].most && rows[i].most < 255);
        rows[i].place = place;
        place += 1 + rows[i].most as usize;
        i += 1;
    }
    assert!(place == STORE_SIZE);
    rows
}

impl Object {
    /// The row of this object.
    pub fn row(self) -> &'static Row {
        &ROWS[self as usize]
    }
}

/// What a search says.
#[derive(Clone, Copy, Debug, PartialEq, Eq)]
pub struct Searched {
    /// Where the tag is, if it is present.
    pub place: Option<usize>,
    /// How many tags were probed.
    pub looks: usize,
}

/// Searches rising tags by halving (document 02, Item 3): at most k probes in fewer than 2 to the k tags.
/// `Object::of_tag` goes another way, so that the tests can compare one with the other.
pub fn search(tags: &[u32], tag: u32) -> Searched {
    let (mut left, mut passed, mut looks) = (tags, 0, 0);
    while let Some(&looked) = left.get(left.len() / 2) {
        let middle = left.len() / 2;
        looks += 1;
        if looked == tag {
            return Searched {
                place: Some(passed + middle),
                looks,
            };
        }
        if looked < tag {
            passed += middle + 1;
            left = &left[middle + 1..];
        } else {
            left = &left[..middle];
        }
    }
    Searched { place: None, looks }
}

/// The mandatory objects of a start.
pub const REQUIRED_AT_START: [Object; 17] = [
    Object::TransactionDate,
    Object::TransactionType,
    Object::AmountAuthorised,
    Object::VersionReader,
    Object::TerminalCountry,
    Object::TerminalCapabilities,
    Object::TerminalType,
    Object::UnpredictableNumber,
    Object::UnpredictableNumberNumeric,
    Object::KernelConfiguration,
    Object::TerminalActionDefault,
    Object::TerminalActionDenial,
    Object::TerminalActionOnline,
    Object::FloorLimit,
    Object::TransactionLimit,
    Object::TransactionLimitOnDevice,
    Object::CvmRequiredLimit,
];

/// Whether a terminal type is one of those listed: 11-16, 21-26, 34-36.
pub fn terminal_type_listed(terminal_type: u8) -> bool {
    matches!(terminal_type, 0x11..=0x16 | 0x21..=0x26 | 0x34..=0x36)
}
