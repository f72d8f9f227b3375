//! Can "viewing" and "not yet settled" hold together? A safe wrapper of the library in one file, to copy, and the question that the desk
//! was built for. Build: rustc --edition 2021 -L target/staticlib -l static=branchmetal -o target/viewing examples/rust/vet.rs

mod branchmetal {
    /// A rule: a form from 1 to 8, a sense (0 as written, 1 negated) and two constants.
    #[repr(C)]
    #[derive(Clone, Copy)]
    pub struct Rule {
        pub form: u64,
        pub sense: u64,
        pub c1: u64,
        pub c2: u64,
    }

    /// The editions: words of 1 to 32 bits, or of 1 to 64.
    #[allow(dead_code)]
    #[derive(Clone, Copy)]
    pub enum Edition {
        Old = 0,
        New = 1,
    }

    /// Which words meet all rules. For none, why: three numbers a link, from, to, and the rule that they fail, or 255 for the bits.
    pub enum Verdict {
        None(Vec<[u64; 3]>),
        One(u64),
        Many { smallest: u64, largest: u64 },
    }

    /// The number of a refusal, and of a list the place of the rule that was refused, or the list's length.
    #[derive(Debug)]
    pub struct Refused {
        pub number: u64,
        pub place: Option<u64>,
    }

    impl std::fmt::Display for Refused {
        fn fmt(&self, f: &mut std::fmt::Formatter) -> std::fmt::Result {
            write!(f, "refused with {}", self.number)?;
            self.place.map_or(Ok(()), |place| write!(f, " at place {place} of the list"))
        }
    }

    impl std::error::Error for Refused {}

    #[repr(C)]
    #[derive(Default)]
    struct Vetted {
        verdict: u64,
        smallest: u64,
        largest: u64,
        links: u64,
        place: u64,
    }

    #[repr(C)]
    #[derive(Default)]
    struct Counted {
        quotient: u64,
        remainder: u64,
        place: u64,
    }

    extern "C" {
        fn branchmetal_vet(
            width: u64,
            edition: u64,
            rules: *const Rule,
            count: usize,
            links: *mut u64,
            room: usize,
            answer: *mut Vetted,
        ) -> u64;
        fn branchmetal_count(width: u64, edition: u64, rules: *const Rule, count: usize, answer: *mut Counted) -> u64;
        fn branchmetal_sheet_open(sheet: *mut Sheet, width: u64, edition: u64) -> u64;
        fn branchmetal_sheet_add(sheet: *mut Sheet, edition: u64, rule: *const Rule) -> u64;
        fn branchmetal_sheet_mark(sheet: *mut Sheet) -> u64;
        fn branchmetal_sheet_back(sheet: *mut Sheet) -> u64;
        fn branchmetal_sheet_count(sheet: *const Sheet, answer: *mut [u64; 2]) -> u64;
    }

    pub fn vet(width: u64, edition: Edition, rules: &[Rule]) -> Result<Verdict, Refused> {
        // The library looks at 201 rules at most, and a sheet has 200.
        let mut links = vec![0; 3 * (4 * rules.len().min(200) + 1)];
        let mut answer = Vetted::default();
        // The pointers are those of live slices and structs, with their lengths, and none overlaps another.
        let number = unsafe {
            branchmetal_vet(width, edition as u64, rules.as_ptr(), rules.len(), links.as_mut_ptr(), links.len(), &mut answer)
        };
        match (number, answer.verdict) {
            (0, 0) => Ok(Verdict::None(links.chunks_exact(3).take(answer.links as usize).map(|l| [l[0], l[1], l[2]]).collect())),
            (0, 1) => Ok(Verdict::One(answer.smallest)),
            (0, _) => Ok(Verdict::Many { smallest: answer.smallest, largest: answer.largest }),
            (number, _) => Err(Refused { number, place: Some(answer.place) }),
        }
    }

    pub fn count(width: u64, edition: Edition, rules: &[Rule]) -> Result<u128, Refused> {
        let mut answer = Counted::default();
        // As above.
        match unsafe { branchmetal_count(width, edition as u64, rules.as_ptr(), rules.len(), &mut answer) } {
            0 => Ok((u128::from(answer.quotient) << 32) + u128::from(answer.remainder)),
            number => Err(Refused { number, place: Some(answer.place) }),
        }
    }

    /// A sheet that is kept between calls: plain memory that the library alone reads and writes. A refused call leaves it as it was.
    #[repr(C)]
    #[derive(Clone)]
    pub struct Sheet {
        numbers: [u64; 841],
    }

    fn told(number: u64) -> Result<(), Refused> {
        if number == 0 {
            Ok(())
        } else {
            Err(Refused { number, place: None })
        }
    }

    // Each pointer is that of a live value, and none overlaps another.
    impl Sheet {
        pub fn open(width: u64, edition: Edition) -> Result<Sheet, Refused> {
            let mut sheet = Sheet { numbers: [0; 841] };
            told(unsafe { branchmetal_sheet_open(&mut sheet, width, edition as u64) })?;
            Ok(sheet)
        }

        pub fn add(&mut self, edition: Edition, rule: &Rule) -> Result<(), Refused> {
            told(unsafe { branchmetal_sheet_add(self, edition as u64, rule) })
        }

        pub fn mark(&mut self) -> Result<(), Refused> {
            told(unsafe { branchmetal_sheet_mark(self) })
        }

        /// Strikes the newest mark and the rules added after it.
        pub fn back(&mut self) -> Result<(), Refused> {
            told(unsafe { branchmetal_sheet_back(self) })
        }

        pub fn count(&self) -> Result<u128, Refused> {
            let mut answer = [0; 2];
            told(unsafe { branchmetal_sheet_count(self, &mut answer) })?;
            Ok((u128::from(answer[0]) << 32) + u128::from(answer[1]))
        }
    }
}

use branchmetal::{count, vet, Edition, Refused, Rule, Sheet, Verdict};

fn ask() -> Result<(), Refused> {
    // The power came on at tick 65000, and the panel settles in 1000 ticks; it has been viewing from tick 65200 to tick 200 past the wrap.
    let rules = [Rule { form: 8, sense: 1, c1: 65000, c2: 1000 }, Rule { form: 3, sense: 0, c1: 336, c2: 536 }];
    match vet(16, Edition::Old, &rules)? {
        Verdict::None(links) => println!("no tick is both: {links:?}"),
        Verdict::One(tick) => println!("tick {tick} alone is both"),
        Verdict::Many { smallest, largest } => {
            let ticks = count(16, Edition::Old, &rules)?;
            println!("{ticks} ticks are both: the smallest is {smallest}, the largest {largest}")
        }
    }
    // The same on a sheet that is kept. A step back strikes the rule again, so that other spans of viewing could be tried.
    let mut sheet = Sheet::open(16, Edition::Old)?;
    sheet.add(Edition::Old, &rules[0])?;
    sheet.mark()?;
    sheet.add(Edition::Old, &rules[1])?;
    assert_eq!(sheet.count()?, count(16, Edition::Old, &rules)?);
    sheet.back()
}

fn main() {
    if let Err(refused) = ask() {
        eprintln!("{refused}");
        std::process::exit(1);
    }
}
