//! Conditions on every choice of four sum variables: gaps between the variables named, sorts of 1, 2, 3 and 16 values, and
//! every k, beside the reader.

use library::asked::{lent, same};
use library::common::random::Random;
use library::stepping::{Frame, NONE, STEP};

/// Sizes of the sorts.
const SIZES: [usize; 4] = [1, 2, 3, 16];

/// So many assignments are many, and so many questions are put to them.
const MANY: usize = 200;
const SOME: usize = 12;

const VARIABLES: [&str; 4] = ["u", "v", "w", "x"];

/// The variables of a choice of some of them, one bit for each.
fn named(choice: usize) -> impl Iterator<Item = usize> {
    (0..4).filter(move |variable| choice >> variable & 1 == 1)
}

/// A test of a choice of the variables: whether an odd number of their tests hold.
fn test(choice: usize, sizes: [usize; 4]) -> String {
    let one = |variable: usize| format!("t{}({})", sizes[variable], VARIABLES[variable]);
    let tests: Vec<String> = named(choice).map(one).collect();
    tests
        .into_iter()
        .reduce(|all, next| format!("odd({all},{next})"))
        .expect("a variable")
}

/// A sheet whose start has four sums, under a condition for each choice, and what becomes of all four values.
fn sheet(choices: &[usize], sizes: [usize; 4], random: &mut Random) -> String {
    let sort = |size| format!("sort D{size} {size};");
    let mut function = |size| {
        let values: Vec<String> = (0..size).map(|_| random.below(2).to_string()).collect();
        format!("func t{size}:D{size}->Bool={};", values.join(","))
    };
    let mut text: String = SIZES.map(sort).concat();
    text += &SIZES.map(&mut function).concat();
    let [u, v, w, x] = sizes;
    let conditions: String = choices
        .iter()
        .map(|&choice| format!("<|{}|>delta)", test(choice, sizes)))
        .collect();
    let brackets = "(".repeat(choices.len());
    text + &format!(
        "func odd:Bool#Bool->Bool=0,1,1,0;act a:D{u}#D{v};act b:D{w}#D{x};\
         proc X=sum(u:D{u},sum(v:D{v},sum(w:D{w},sum(x:D{x},{brackets}a(u,v).Y(w,x){conditions}))));\
         proc Y(w:D{w},x:D{x})=b(w,x);init X;"
    )
}

/// Puts step k for every k, or for some where there are many; how many steps were found.
fn compare(choices: &[usize], number: usize, random: &mut Random) -> usize {
    let sizes = [0, 1, 2, 3].map(|place| SIZES[number >> (2 * place) & 3]);
    let sheet = sheet(choices, sizes, random);
    let file = reader::make_table(sheet.as_bytes()).expect("a table");
    let frames = lent(&[Frame::default()]);
    let all = sizes.iter().product::<usize>();
    let ks: Vec<usize> = if all <= MANY {
        (0..=all).collect()
    } else {
        (0..SOME).map(|_| random.below(all)).collect()
    };
    let put = |&k: &usize| same(&file, &frames, 1, k as u64, &sheet);
    let kinds: Vec<(u8, u8)> = ks.iter().map(put).collect();
    let steps = kinds.iter().filter(|&&kind| kind == (0, STEP)).count();
    let nones = kinds.iter().filter(|&&kind| kind == (0, NONE)).count();
    assert_eq!(steps + nones, ks.len(), "{sheet}");
    steps
}

#[test]
fn one_condition_on_every_choice() {
    let random = &mut Random::new(31);
    let mut found = 0;
    for choice in 1..16 {
        for number in 0..256 {
            found += compare(&[choice], number, random);
        }
    }
    assert!(found > 20_000, "{found}");
}

#[test]
fn conditions_on_two_choices() {
    let random = &mut Random::new(32);
    let mut found = 0;
    for one in 1..16 {
        for other in 1..16 {
            for _ in 0..8 {
                found += compare(&[one, other], random.below(256), random);
            }
        }
    }
    assert!(found > 5_000, "{found}");
}

#[test]
fn conditions_on_three_choices() {
    let random = &mut Random::new(33);
    let mut found = 0;
    for _ in 0..1_000 {
        let choices: Vec<usize> = (0..3).map(|_| 1 + random.below(15)).collect();
        found += compare(&choices, random.below(256), random);
    }
    assert!(found > 2_000, "{found}");
}
