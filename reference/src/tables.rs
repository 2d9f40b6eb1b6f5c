//! What a label declares, how a lot is sampled, and the printed tables, typed from docs/RULES.md.

#[derive(Clone, Copy, Debug, PartialEq, Eq, PartialOrd, Ord)]
pub enum Kind {
    Msi,
    Mus,
    Lsi,
    Cnt,
    Len,
    Are,
}

/// A maximum allowable variation, a fraction of base units.
#[derive(Clone, Copy, Debug, PartialEq, Eq)]
pub struct Mav {
    pub numerator: i64,
    pub denominator: i64,
}

pub const KINDS: [Kind; 6] = [Kind::Msi, Kind::Mus, Kind::Lsi, Kind::Cnt, Kind::Len, Kind::Are];

/// Label up to, in grams; MAV in tenths of a gram.
const MSI: &[(i64, i64)] = &[
    (54, 36),
    (81, 54),
    (117, 72),
    (154, 90),
    (208, 108),
    (263, 127),
    (317, 145),
    (381, 163),
    (426, 181),
    (489, 199),
    (571, 217),
    (635, 235),
    (698, 254),
    (771, 272),
    (852, 290),
    (970, 317),
    (1_120, 353),
    (1_250, 390),
    (1_450, 426),
    (1_760, 490),
    (2_130, 540),
    (2_630, 630),
    (3_080, 680),
    (3_580, 770),
    (4_260, 860),
    (5_300, 990),
    (6_480, 1_130),
    (8_020, 1_270),
    (10_520, 1_400),
    (14_330, 1_670),
    (19_230, 1_990),
    (24_670, 2_260),
];

/// Label up to, in hundredths of a pound; MAV in thousandths of a pound.
const MUS: &[(i64, i64)] = &[
    (12, 8),
    (18, 12),
    (26, 16),
    (34, 20),
    (46, 24),
    (58, 28),
    (70, 32),
    (84, 36),
    (94, 40),
    (108, 44),
    (126, 48),
    (140, 52),
    (154, 56),
    (170, 60),
    (188, 64),
    (214, 70),
    (248, 78),
    (276, 86),
    (320, 94),
    (390, 110),
    (470, 120),
    (580, 140),
    (680, 150),
    (790, 170),
    (940, 190),
    (1_170, 220),
    (1_430, 250),
    (1_770, 280),
    (2_320, 310),
    (3_160, 370),
    (4_240, 440),
    (5_440, 500),
];

/// Label up to, in millilitres; MAV in tenths of a millilitre.
const LSI: &[(i64, i64)] = &[
    (3, 5),
    (8, 10),
    (14, 15),
    (22, 17),
    (66, 38),
    (125, 56),
    (170, 73),
    (221, 91),
    (347, 112),
    (502, 147),
    (621, 186),
    (798, 221),
    (916, 260),
    (1_150, 290),
    (1_620, 360),
    (2_040, 440),
    (2_510, 510),
    (3_040, 590),
    (4_730, 730),
    (5_480, 880),
    (7_090, 1_030),
    (8_040, 1_180),
    (10_170, 1_330),
    (11_590, 1_470),
    (16_560, 1_770),
    (18_920, 2_070),
    (23_650, 2_360),
    (26_730, 2_660),
];

/// Label up to, in items; MAV in items.
const CNT: &[(i64, i64)] = &[
    (17, 0),
    (50, 1),
    (83, 2),
    (116, 3),
    (150, 4),
    (200, 5),
    (240, 6),
    (290, 7),
    (345, 8),
    (400, 9),
    (465, 10),
    (540, 11),
    (625, 12),
    (725, 13),
    (815, 14),
    (900, 15),
    (990, 16),
    (1_075, 17),
    (1_165, 18),
    (1_250, 19),
    (1_333, 20),
];

/// Label up to, in metres; MAV in tenths of a percent.
const LEN: &[(i64, i64)] = &[(1, 30), (43, 15), (87, 20), (140, 25), (301, 30), (1_005, 40)];

/// The first row that the label does not pass; `scale` brings its limit to base units.
fn row(table: &[(i64, i64)], scale: i64, label: i64) -> Option<i64> {
    table.iter().find(|&&(limit, _)| label <= limit * scale).map(|&(_, value)| value)
}

fn amount(base_units: i64) -> Mav {
    Mav { numerator: base_units, denominator: 1 }
}

fn tenths_of_a_percent(tenths: i64, label: i64) -> Mav {
    Mav { numerator: tenths * label, denominator: 1_000 }
}

/// The nearest whole number, a half to the even one. Neither number is negative.
pub fn nearest(numerator: i64, denominator: i64) -> i64 {
    let (whole, rest) = (numerator / denominator, numerator % denominator);
    match (2 * rest).cmp(&denominator) {
        std::cmp::Ordering::Less => whole,
        std::cmp::Ordering::Equal => whole + whole % 2,
        std::cmp::Ordering::Greater => whole + 1,
    }
}

impl Kind {
    pub fn word(self) -> &'static str {
        match self {
            Kind::Msi => "msi",
            Kind::Mus => "mus",
            Kind::Lsi => "lsi",
            Kind::Cnt => "cnt",
            Kind::Len => "len",
            Kind::Are => "are",
        }
    }

    pub fn from_word(word: &[u8]) -> Option<Kind> {
        KINDS.into_iter().find(|kind| kind.word().as_bytes() == word)
    }

    /// Whether packages are weighed with a tare.
    pub fn weighed(self) -> bool {
        matches!(self, Kind::Msi | Kind::Mus)
    }

    /// The MAV of a label in base units.
    pub fn mav(self, label: i64) -> Mav {
        match self {
            Kind::Msi if label < 36_000 => tenths_of_a_percent(100, label),
            Kind::Msi => match row(MSI, 1_000, label) {
                Some(tenths_of_a_gram) => amount(tenths_of_a_gram * 100),
                None => tenths_of_a_percent(20, label),
            },
            Kind::Mus if label < 800 => tenths_of_a_percent(100, label),
            Kind::Mus => match row(MUS, 100, label) {
                Some(thousandths_of_a_pound) => amount(thousandths_of_a_pound * 10),
                None => tenths_of_a_percent(20, label),
            },
            Kind::Lsi => match row(LSI, 10, label) {
                Some(tenths_of_a_millilitre) => amount(tenths_of_a_millilitre),
                None => tenths_of_a_percent(10, label),
            },
            Kind::Cnt => match row(CNT, 1, label) {
                Some(items) => amount(items),
                None => amount(nearest(label * 15, 1_000)),
            },
            Kind::Len => tenths_of_a_percent(row(LEN, 1_000, label).unwrap_or(50), label),
            Kind::Are => tenths_of_a_percent(30, label),
        }
    }

    /// The last label of each printed row, in base units, for the driver.
    pub fn row_ends(self) -> Vec<i64> {
        let ends = |table: &[(i64, i64)], scale| table.iter().map(|row| row.0 * scale).collect();
        let mut all: Vec<i64> = match self {
            Kind::Msi => ends(MSI, 1_000),
            Kind::Mus => ends(MUS, 100),
            Kind::Lsi => ends(LSI, 10),
            Kind::Cnt => ends(CNT, 1),
            Kind::Len => ends(LEN, 1_000),
            Kind::Are => Vec::new(),
        };
        match self {
            Kind::Msi => all.insert(0, 35_999),
            Kind::Mus => all.insert(0, 799),
            _ => {}
        }
        all
    }
}

#[derive(Clone, Copy, Debug, PartialEq, Eq, PartialOrd, Ord)]
pub enum Category {
    A,
    B,
    C,
}

pub const CATEGORIES: [Category; 3] = [Category::A, Category::B, Category::C];

/// How a lot is sampled.
#[derive(Clone, Copy, Debug, PartialEq, Eq)]
pub struct Plan {
    pub category: Category,
    pub n: usize,
    /// Whether the average applies.
    pub average: bool,
    /// The sample correction factor, in thousandths.
    pub factor: i64,
    pub allowed: usize,
    /// Whether the allowed number counts all short packages, or the unreasonable ones.
    pub counts_short: bool,
    pub initial: usize,
}

/// Category A: lot up to, n, f, c, i.
const PLANS_A: [(i64, usize, i64, usize, usize); 13] = [
    (1, 1, 0, 0, 1),
    (2, 2, 8985, 0, 2),
    (3, 3, 2484, 0, 2),
    (4, 4, 1591, 0, 2),
    (5, 5, 1242, 0, 2),
    (6, 6, 1049, 0, 2),
    (7, 7, 925, 0, 2),
    (8, 8, 836, 0, 2),
    (9, 9, 769, 0, 2),
    (10, 10, 715, 0, 2),
    (11, 11, 672, 0, 2),
    (250, 12, 635, 0, 2),
    (3_200, 24, 422, 0, 2),
];
const LARGEST_A: (i64, usize, i64, usize, usize) = (i64::MAX, 48, 290, 1, 2);

/// Category A: ratio up to, in hundredths, and the totals for n = 12, 24, 48.
const TOTALS_A: &[(i64, usize, usize, usize)] = &[
    (0, 12, 24, 48),
    (20, 12, 24, 48),
    (60, 12, 24, 48),
    (70, 12, 24, 47),
    (80, 12, 23, 47),
    (100, 12, 23, 46),
    (110, 11, 23, 46),
    (120, 11, 23, 45),
    (130, 11, 22, 45),
    (150, 11, 22, 44),
    (160, 11, 22, 43),
    (170, 11, 21, 42),
    (180, 10, 21, 42),
    (190, 10, 21, 41),
    (200, 10, 20, 41),
    (210, 10, 20, 40),
    (220, 10, 20, 39),
    (230, 10, 19, 39),
    (240, 9, 19, 38),
    (250, 9, 19, 37),
    (260, 9, 18, 37),
    (270, 9, 18, 36),
    (280, 9, 18, 35),
    (290, 9, 17, 34),
    (300, 8, 17, 34),
    (310, 8, 17, 33),
    (330, 8, 16, 32),
    (340, 8, 16, 31),
    (350, 8, 15, 30),
    (360, 7, 15, 30),
    (370, 7, 15, 29),
    (390, 7, 14, 28),
    (400, 7, 14, 27),
    (410, 7, 13, 27),
    (420, 7, 13, 26),
    (430, 6, 13, 25),
    (440, 6, 12, 25),
    (460, 6, 12, 24),
    (470, 6, 12, 23),
    (480, 6, 11, 23),
    (490, 6, 11, 22),
    (500, 5, 11, 22),
    (510, 5, 11, 21),
    (520, 5, 10, 21),
    (540, 5, 10, 20),
    (560, 5, 10, 19),
    (570, 5, 9, 19),
    (580, 5, 9, 18),
    (590, 4, 9, 18),
    (610, 4, 9, 17),
    (620, 4, 8, 17),
    (650, 4, 8, 16),
    (670, 4, 8, 15),
    (680, 4, 7, 15),
    (700, 4, 7, 14),
    (720, 3, 7, 14),
    (740, 3, 7, 13),
    (760, 3, 6, 13),
    (800, 3, 6, 12),
    (820, 3, 6, 11),
    (850, 3, 5, 11),
    (880, 3, 5, 10),
    (900, 2, 5, 10),
    (930, 2, 5, 9),
    (970, 2, 4, 9),
    (1_040, 2, 4, 8),
    (1_090, 2, 4, 7),
    (1_130, 2, 3, 7),
    (1_250, 2, 3, 6),
    (1_320, 2, 3, 5),
    (1_390, 2, 2, 5),
    (1_600, 2, 2, 4),
    (1_910, 2, 2, 3),
    (1_920, 2, 2, 2),
];

/// Category B: ratio up to, in hundredths, and the totals for n = 10, 30; past the last row 2, 5.
const TOTALS_B: &[(i64, usize, usize)] = &[
    (0, 10, 30),
    (20, 10, 30),
    (40, 10, 29),
    (60, 10, 28),
    (80, 9, 26),
    (100, 8, 24),
    (120, 8, 23),
    (140, 7, 21),
    (160, 7, 19),
    (180, 6, 17),
    (200, 5, 15),
    (220, 5, 14),
    (240, 5, 13),
    (260, 4, 12),
    (280, 4, 11),
    (300, 4, 10),
    (320, 3, 9),
    (360, 3, 8),
    (380, 3, 7),
    (440, 2, 6),
];

impl Category {
    pub fn letter(self) -> &'static str {
        match self {
            Category::A => "A",
            Category::B => "B",
            Category::C => "C",
        }
    }

    pub fn from_word(word: &[u8]) -> Option<Category> {
        CATEGORIES.into_iter().find(|category| category.letter().as_bytes() == word)
    }

    /// The plan for a lot, or none where the category does not take it.
    /// The label is in base units, 0 in a random lot.
    pub fn plan(self, size: i64, kind: Kind, label: i64) -> Option<Plan> {
        if size < 1 {
            return None;
        }
        let low_count = kind == Kind::Cnt && label <= 50;
        match self {
            Category::A if low_count => None,
            Category::A => {
                let fits = |row: &&(i64, usize, i64, usize, usize)| size <= row.0;
                let &(_, n, factor, allowed, initial) =
                    PLANS_A.iter().find(fits).unwrap_or(&LARGEST_A);
                let average = n >= 2;
                Some(Plan {
                    category: self,
                    n,
                    average,
                    factor,
                    allowed,
                    counts_short: false,
                    initial,
                })
            }
            Category::B if !kind.weighed() || size < 10 => None,
            Category::B => {
                let (n, initial) = if size <= 250 { (10, 2) } else { (30, 5) };
                Some(Plan {
                    category: self,
                    n,
                    average: true,
                    factor: 0,
                    allowed: 0,
                    counts_short: false,
                    initial,
                })
            }
            Category::C if !low_count => None,
            Category::C => {
                let (n, allowed) = match size {
                    1..=11 => (size as usize, 1),
                    12..=250 => (12, 1),
                    251..=3_200 => (24, 2),
                    _ => (48, 3),
                };
                Some(Plan {
                    category: self,
                    n,
                    average: false,
                    factor: 0,
                    allowed,
                    counts_short: true,
                    initial: 0,
                })
            }
        }
    }
}

impl Plan {
    /// From how many packages the tare is found, for a ratio in hundredths.
    pub fn total(&self, ratio: i64) -> usize {
        let found = match (self.category, self.n) {
            (Category::A, 12) => TOTALS_A.iter().find(|row| ratio <= row.0).map(|row| row.1),
            (Category::A, 24) => TOTALS_A.iter().find(|row| ratio <= row.0).map(|row| row.2),
            (Category::A, 48) => TOTALS_A.iter().find(|row| ratio <= row.0).map(|row| row.3),
            (Category::B, 10) => TOTALS_B.iter().find(|row| ratio <= row.0).map(|row| row.1),
            (Category::B, 30) => TOTALS_B.iter().find(|row| ratio <= row.0).map(|row| row.2),
            _ => None,
        };
        found.unwrap_or(self.initial)
    }

    /// The last ratio of each printed row, for the driver.
    pub fn ratio_ends(&self) -> Vec<i64> {
        match (self.category, self.n) {
            (Category::A, 12 | 24 | 48) => TOTALS_A.iter().map(|row| row.0).collect(),
            (Category::B, _) => TOTALS_B.iter().map(|row| row.0).collect(),
            _ => Vec::new(),
        }
    }
}
