//! The readings taken of printing: names, letters, forms, and what question 17 is put to.

mod common;

use common::{repeated, table};
use reader::{encode_file, print_table, printed, Table};

/// The text of a table, and that it is read back, with the names of its sorts.
fn text_of(table: &Table) -> String {
    let text = print_table(&encode_file(table)).expect("a text");
    let again = reader::make_table(text.as_bytes());
    assert_eq!(again, Ok(encode_file(&table.renewed())), "{text}");
    text
}

/// The text of a sheet's table.
fn text(sheet: &str) -> String {
    text_of(&table(sheet))
}

/// The text of a sheet's table in the earlier layout.
fn older_text(sheet: &str) -> String {
    text_of(&table(sheet).older())
}

fn refused_of(table: &Table) {
    assert_eq!(print_table(&encode_file(table)), Err(17));
}

fn refused(sheet: &str) {
    refused_of(&table(sheet));
}

#[test]
fn sorts_keep_their_names() {
    let sheet = "sort D 3;sort E 1;act a:E#D;proc X(x:D)=sum(e:E,a(e,x));init X(2);";
    let wanted = "sort D 3;sort E 1;act a:E#D;proc p0(v0:D)=sum(v1:E,a(v1,v0));init p0(2);";
    assert_eq!(text(sheet), wanted);
}

#[test]
fn without_names_the_first_sort_after_bool_has_index_1() {
    let sheet = "sort D 3;sort E 1;act a:E#D;proc X(x:D)=sum(e:E,a(e,x));init X(2);";
    let wanted = "sort s1 3;sort s2 1;act a:s2#s1;proc p0(v0:s1)=sum(v1:s2,a(v1,v0));init p0(2);";
    assert_eq!(older_text(sheet), wanted);
}

#[test]
fn each_letter_is_repeated_by_itself() {
    let sheet = "sort D 1;func g:D->Bool=1;act s;act pp;proc X(x:D)=s<|g(x)|>pp;init X(0);";
    let wanted = "sort ss1 1;func f0:ss1->Bool=1;act s;act pp;\
        proc ppp0(v0:ss1)=s<|f0(v0)|>delta+delta<|f0(v0)|>pp;init ppp0(0);";
    assert_eq!(older_text(sheet), wanted);
    assert_eq!(text(sheet), wanted.replace("ss1", "D"));
}

#[test]
fn a_name_only_has_to_begin_with_the_run() {
    for (name, process) in [
        ("p", "pp0"),
        ("p0", "pp0"),
        ("print", "pp0"),
        ("pp", "ppp0"),
        ("xp", "p0"),
        ("P", "p0"),
        ("pxp", "pp0"),
    ] {
        let sheet = format!("act {name};proc X={name};init X;");
        let wanted = format!("act {name};proc {process}={name};init {process};");
        assert_eq!(text(&sheet), wanted);
    }
    // The shortest run is looked for from the shortest on: `ppp` stops `p` and `pp` too.
    assert_eq!(
        text("act ppp;proc X=ppp;init X;"),
        "act ppp;proc pppp0=ppp;init pppp0;"
    );
}

#[test]
fn without_actions_the_letter_stands_once() {
    assert_eq!(text("proc X=tau.X;init X;"), "proc p0=tau.p0;init p0;");
}

#[test]
fn an_equation_without_summands_is_delta() {
    assert_eq!(text("proc X=delta;init X;"), "proc p0=delta;init p0;");
    let wanted = "act a;proc p0=a.p1;proc p1=delta;init p0;";
    assert_eq!(text("act a;proc X=a.delta;init X;"), wanted);
}

#[test]
fn a_run_that_is_never_printed_does_no_harm() {
    let long = "v".repeat(16);
    text(&format!("act {long};proc X={long};init X;"));
    refused(&format!("act {long};proc X(x:Bool)={long};init X(0);"));
    refused(&format!("act {long};proc X=sum(x:Bool,{long});init X;"));
    let sorts = "s".repeat(16);
    text(&format!("act {sorts};proc X={sorts};init X;"));
    let sheet = format!("sort D 1;act {sorts};proc X={sorts};init X;");
    text(&sheet);
    refused_of(&table(&sheet).older());
    let functions = "f".repeat(16);
    text(&format!("act {functions};proc X={functions};init X;"));
    refused(&format!(
        "func g:Bool->Bool=0,0;act {functions};proc X=tau;init X;"
    ));
    refused(&format!("act {};proc X=tau;init X;", "p".repeat(15)));
}

#[test]
fn the_index_counts_for_the_length_of_a_name() {
    let name = "p".repeat(14);
    let sheet = |count: usize| {
        let processes: String = (0..count).map(|i| format!("proc X{i}=tau;")).collect();
        format!("act {name};{processes}init X0;")
    };
    text(&sheet(10));
    refused(&sheet(11));
}

#[test]
fn more_than_16_equations_are_refused() {
    let sheet = |count| format!("act a;proc X={};init X;", repeated("a.a", count, "+"));
    text(&sheet(15));
    refused(&sheet(16));
}

#[test]
fn data_in_more_than_16_brackets_are_refused() {
    let nested = |count: usize| {
        let process = "func f:Bool->Bool=1,0;act a:Bool;proc X(x:Bool)=a(x)+a(f(x)).X(f(x))";
        let (open, close) = ("f(".repeat(count), ")".repeat(count));
        format!("{process};proc Y(y:Bool)=tau.X({open}y{close});init Y(0);")
    };
    text(&nested(15));
    // The sheet itself has no more than 16: its calls bring the data deeper.
    let deeper = |count: usize| {
        let (open, close) = ("f(".repeat(count), ")".repeat(count));
        format!(
            "func f:Bool->Bool=1,0;act a:Bool;proc X(x:Bool)=a({open}x{close});\
             proc Y(y:Bool)=X({open}y{close});init Y(0);"
        )
    };
    text(&deeper(7));
    refused(&deeper(8));
}

#[test]
fn nothing_is_simplified() {
    let sheet = "sort D 2;func f:D->D=1,0;act a;act b:D;\
        proc X=sum(d:D,a.X)<|1|>delta+a<|0|>a+delta<|0|>a;init X;";
    let wanted = "sort D 2;func f0:D->D=1,0;act a;act b:D;\
        proc p0=sum(v0:D,a.p0<|1|>delta)+a<|0|>delta+delta<|0|>a+delta<|0|>a;init p0;";
    assert_eq!(text(sheet), wanted);
}

#[test]
fn a_conditional_in_a_conditional_stands_in_brackets() {
    let sheet = "act a;act b;proc X(x:Bool,y:Bool)=(a.X(y,x)<|x|>(b<|y|>delta))<|y|>(delta<|x|>a);init X(0,1);";
    let wanted = "act a;act b;proc p0(v0:Bool,v1:Bool)=(a.p0(v1,v0)<|v0|>delta)<|v1|>delta\
        +(delta<|v0|>(b<|v1|>delta))<|v1|>delta+delta<|v1|>(delta<|v0|>a);init p0(0,1);";
    assert_eq!(text(sheet), wanted);
}

#[test]
fn a_text_of_4096_bytes_is_printed() {
    let name = "abcdefghijklmnop";
    let sheet = |spare: usize| {
        let right = repeated(name, 238, "+");
        format!(
            "act {};act {name};proc X={right};init X;",
            "z".repeat(spare)
        )
    };
    let [met, passed] = [8, 9].map(|spare| printed(&table(&sheet(spare))).len());
    assert_eq!([met, passed], [4096, 4097]);
    text(&sheet(8));
    refused(&sheet(9));
}
