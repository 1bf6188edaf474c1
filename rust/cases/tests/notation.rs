//! Texts and the bytes that they are read as.

use kb_cases::notation::{read, Theory};
use kb_cases::put_back::simplified::groups_with_unit;
use kb_cases::theories::{group_rules, GROUP};

/// Both sides of an equation over the symbols of groups.
fn sides(equation: &str) -> Vec<u8> {
    let theory = Theory::new(GROUP).equation(equation);
    theory.sides(&[1]).remove(0)
}

/// The bytes of a problem, or what is wrong.
fn problem(text: &str) -> Result<Vec<u8>, String> {
    let read = read(text).map_err(|error| error.to_string());
    read.map(|(theory, budget)| theory.problem(budget))
}

#[test]
fn the_examples() {
    let groups = include_str!("../../../examples/groups.txt");
    assert_eq!(problem(groups), Ok(group_rules().problem(1_000_000)));
    let put_back = include_str!("../../../examples/put_back.txt");
    assert_eq!(problem(put_back), Ok(groups_with_unit().problem(1_000_000)));
}

#[test]
fn lines_and_blanks() {
    let symbols = [1, 0, 4, 0, 0, 1, 1];
    let (budget, equation) = ([2, 0, 4, 0, 0, 0, 100], [3, 0, 4, 1, 1, 0x80, 0x80]);
    let bytes = [symbols, budget, equation].concat();
    for text in [
        "symbols c/0/0 f/1/1\nbudget 100\nf(f(x)) = x\n",
        "symbols c/0/0 f/1/1\nbudget 100\nf(f(x)) = x",
        "symbols c/0/0 f/1/1\r\nbudget 100\r\nf(f(x)) = x\r\n",
        "# f\n\n  symbols\tc/0/0   f/1/1 \nbudget  100\n\t# x\nf ( f(x) )=x\n\n",
        "symbols c/0/0 f/1/1\nbudget 0100\n((f(f((x))))) = (x)",
    ] {
        assert_eq!(problem(text), Ok(bytes.clone()), "{text}");
    }
}

#[test]
fn no_equation() {
    let theory = Theory::new(GROUP).problem(0);
    assert_eq!(problem(&format!("symbols {GROUP}\nbudget 0")), Ok(theory));
}

#[test]
fn operators_before_and_between() {
    let commuting = [2, 0x80, 0x81, 2, 0x81, 0x80];
    assert_eq!(sides("*(x,y) = *(y,x)"), commuting);
    assert_eq!(sides("x*y = y*x"), commuting);
    assert_eq!(sides("  ( x * y )=(y*x)"), commuting);
    let nested = [2, 2, 0x80, 0x81, 0x82, 2, 0x80, 2, 0x81, 0x82];
    assert_eq!(sides("(x*y)*z = x*(y*z)"), nested);
    assert_eq!(sides("*(x*y,z) = *(x,*(y,z))"), nested);
    assert_eq!(sides("*(x,y)*z = x*(*(y,z))"), nested);
    assert_eq!(
        sides("i(x*y) = i(y)*i(x)"),
        sides("i(*(x,y)) = *(i(y),i(x))")
    );
}

#[test]
fn names_are_whole_words_or_one_sign() {
    assert_eq!(sides("e1*e = ee"), [2, 0x80, 0, 0x81]);
    assert_eq!(sides("x_1 = x_2"), [0x80, 0x81]);
    assert_eq!(sides("x'*x'' = x*x'"), [2, 0x80, 0x81, 2, 0x82, 0x80]);
    let theory = Theory::new("0/0/0 -/1/1 +/2/2 //2/3 q/4/4 ∘/2/5 mul/2/6");
    let theory = theory.equations(&["-(x)+0 = q(x,y/x,0,x)", "α∘β = mul(β,α)"]);
    assert_eq!(
        theory.all_sides(),
        [
            vec![2, 1, 0x80, 0, 4, 0x80, 3, 0x81, 0x80, 0, 0x80],
            vec![5, 0x80, 0x81, 6, 0x81, 0x80],
        ]
    );
}

#[test]
fn two_terms_share_their_variables() {
    let terms = Theory::new(GROUP).terms(["x*y", "y*z"]);
    assert_eq!(terms, [[2, 0x80, 0x81], [2, 0x81, 0x82]]);
}

/// What the engine refuses by its own limits can be written.
#[test]
fn counts_and_sizes_are_left_to_the_engine() {
    let head = format!("symbols {GROUP}\nbudget 9\n");
    let many = head.clone() + &"x = x\n".repeat(17);
    assert_eq!(
        read(&many).map(|(theory, _)| theory.all_sides().len()),
        Ok(17)
    );
    let long = format!("{head}{}x{} = x", "i(".repeat(120), ")".repeat(120));
    assert_eq!(problem(&long).map(|bytes| bytes.len()), Ok(19 + 122));
}
