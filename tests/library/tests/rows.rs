//! Random conditions that tie four sum variables together, of sorts of 1 to 16 values: blocks for pairs of values of the last
//! two variables that they name are tested at once. Step k beside the reader, for every k or for some, and k too large.

use library::asked::{lent, same};
use library::common::random::Random;
use library::stepping::{Frame, NONE, STEP};
use reader::{all_steps, read_table};

const VARIABLES: [&str; 4] = ["u", "v", "w", "x"];

/// So many assignments are many, and so many questions are put to them.
const MANY: usize = 300;
const SOME: usize = 40;

/// Sizes of the variables' sorts, and the pairs of sorts that have a function.
struct Sorts {
    sizes: [usize; 4],
    pairs: Vec<(usize, usize)>,
}

/// Values of a function, each below a size.
fn values(count: usize, size: usize, random: &mut Random) -> String {
    let values: Vec<String> = (0..count).map(|_| random.below(size).to_string()).collect();
    values.join(",")
}

impl Sorts {
    /// Sorts with no more assignments than these, some of them of one value.
    fn new(most: usize, random: &mut Random) -> Self {
        let sizes = loop {
            let sizes = [(); 4].map(|()| 1 + random.below(16) * random.below(2));
            if sizes.iter().product::<usize>() <= most {
                break sizes;
            }
        };
        let [u, v, w, x] = sizes;
        let mut pairs = vec![(u, v), (v, w), (w, x), (x, x), (u, x)];
        pairs.sort_unstable();
        pairs.dedup();
        Sorts { sizes, pairs }
    }

    fn distinct(&self) -> Vec<usize> {
        let mut sizes = self.sizes.to_vec();
        sizes.sort_unstable();
        sizes.dedup();
        sizes
    }

    /// A sort for each size, a test and a change of it, and a function for each pair, which gives the second sort.
    fn declared(&self, random: &mut Random) -> String {
        let mut text = String::new();
        for size in self.distinct() {
            text += &format!("sort D{size} {size};");
        }
        for size in self.distinct() {
            let (test, change) = (values(size, 2, random), values(size, size, random));
            text += &format!(
                "func t{size}:D{size}->Bool={test};func g{size}:D{size}->D{size}={change};"
            );
        }
        for &(a, b) in &self.pairs {
            let all = values(a * b, b, random);
            text += &format!("func f{a}x{b}:D{a}#D{b}->D{b}={all};");
        }
        text
    }

    /// Data of a sort: a variable, a value, a change, or a function of two data.
    fn data(&self, size: usize, deep: usize, random: &mut Random) -> String {
        let fits: Vec<usize> = (0..4).filter(|&place| self.sizes[place] == size).collect();
        let pairs: Vec<_> = self.pairs.iter().filter(|pair| pair.1 == size).collect();
        match random.below(8) {
            0 | 1 if deep > 0 => format!("g{size}({})", self.data(size, deep - 1, random)),
            2..=6 if deep > 0 && !pairs.is_empty() => {
                let &&(a, b) = &pairs[random.below(pairs.len())];
                let (one, other) = (
                    self.data(a, deep - 1, random),
                    self.data(b, deep - 1, random),
                );
                format!("f{a}x{b}({one},{other})")
            }
            _ if fits.is_empty() => random.below(size).to_string(),
            _ => VARIABLES[fits[random.below(fits.len())]].to_string(),
        }
    }

    /// A condition: tests of data, data compared, and operators over them.
    fn condition(&self, deep: usize, random: &mut Random) -> String {
        let size = self.sizes[random.below(4)];
        match random.below(6) {
            0 if deep > 0 => format!("!{}", self.condition(deep - 1, random)),
            1 | 2 if deep > 0 => {
                let join = ["/\\", "\\/"][random.below(2)];
                let (one, other) = (
                    self.condition(deep - 1, random),
                    self.condition(deep - 1, random),
                );
                format!("({one}{join}{other})")
            }
            3 => format!(
                "(g{size}({})=={})",
                self.data(size, 1, random),
                self.data(size, 2, random)
            ),
            _ => format!("t{size}({})", self.data(size, 3, random)),
        }
    }

    fn sheet(&self, conditions: usize, random: &mut Random) -> String {
        let [u, v, w, x] = self.sizes;
        let declared = self.declared(random);
        let tests: String = (0..conditions)
            .map(|_| format!("<|{}|>delta)", self.condition(2, random)))
            .collect();
        let brackets = "(".repeat(conditions);
        format!(
            "{declared}act a:D{u}#D{v};act b:D{w}#D{x};\
             proc X=sum(u:D{u},sum(v:D{v},sum(w:D{w},sum(x:D{x},{brackets}a(u,v).Y(w,x){tests}))));\
             proc Y(w:D{w},x:D{x})=b(w,x);init X;"
        )
    }
}

/// Puts step k for every k, or for some where there are many; how many steps there are.
fn compare(most: usize, random: &mut Random) -> Option<usize> {
    let sorts = Sorts::new(most, random);
    let conditions = 1 + random.below(4);
    let sheet = sorts.sheet(conditions, random);
    let file = reader::make_table(sheet.as_bytes()).ok()?;
    let table = read_table(&file).expect("a table");
    let count = all_steps(&table, &table.start_stack()).len();
    let frames = lent(&[Frame::default()]);
    let ks: Vec<usize> = if count <= MANY {
        (0..=count).collect()
    } else {
        let some = (0..SOME).map(|_| random.below(count));
        some.chain([0, 15, 16, 17, count - 1, count]).collect()
    };
    for k in ks {
        let wanted = if k < count { STEP } else { NONE };
        assert_eq!(
            same(&file, &frames, 1, k as u64, &sheet),
            (0, wanted),
            "{k}: {sheet}"
        );
    }
    assert_eq!(
        same(&file, &frames, 1, u64::MAX, &sheet),
        (0, NONE),
        "{sheet}"
    );
    Some(count)
}

#[test]
fn every_step_of_few_assignments() {
    let random = &mut Random::new(41);
    let counts: Vec<usize> = (0..1_500).filter_map(|_| compare(600, random)).collect();
    assert!(counts.len() > 800, "{}", counts.len());
    assert!(counts.iter().sum::<usize>() > 10_000);
}

#[test]
fn some_steps_of_many_assignments() {
    let random = &mut Random::new(42);
    let counts: Vec<usize> = (0..120).filter_map(|_| compare(20_000, random)).collect();
    assert!(counts.len() > 60, "{}", counts.len());
    assert!(counts.iter().any(|&count| count > 1_000));
}
