//! Wrong texts: line, column, what was expected and what stands there.

use kb_cases::notation::{read, Theory};
use kb_cases::theories::GROUP;

/// What is wrong with a text.
fn error(text: &str) -> String {
    let read = read(text).map(|(theory, _)| theory.all_sides());
    read.expect_err(text).to_string()
}

fn told(text: &str, message: &str) {
    assert_eq!(error(text), message, "{text}");
}

/// An equation over the symbols of groups.
fn equation(equation: &str, message: &str) {
    let text = format!("symbols {GROUP}\nbudget 9\n{equation}\n");
    told(&text, &format!("line 3, column {message}"));
}

#[test]
fn wrong_arities() {
    equation(
        "*(x) = i(y,z)",
        "4: expected ',' and argument 2 of * or an operator, found ')'",
    );
    equation(
        "x = i(y,z)",
        "8: expected ')' behind argument 1 of i or an operator, found ','",
    );
    equation(
        "*(x,y,z) = x",
        "6: expected ')' behind argument 2 of * or an operator, found ','",
    );
    equation(
        "*(x*y) = x",
        "6: expected ',' and argument 2 of *, found ')'",
    );
    equation("i() = x", "3: expected a term, found ')'");
    equation(
        "i = e",
        "3: expected '(' before the arguments of i, found '='",
    );
    equation(
        "x = i",
        "6: expected '(' before the arguments of i, found nothing",
    );
    equation(
        "* = e",
        "3: expected '(' before the arguments of *, found '='",
    );
    equation("e(x) = x", "2: expected no arguments of e, found '('");
    equation("e() = x", "2: expected no arguments of e, found '('");
}

#[test]
fn wrong_brackets() {
    equation(
        "i(x = e",
        "5: expected ')' behind argument 1 of i or an operator, found '='",
    );
    equation("(x*y = e", "6: expected ')', found '='");
    equation("x = (y", "7: expected ')' or an operator, found nothing");
    equation("x) = e", "2: expected '=' or an operator, found ')'");
    equation(
        "x = y)",
        "6: expected the end of the line or an operator, found ')'",
    );
    equation("() = x", "2: expected a term, found ')'");
    equation(
        "(i)(x) = x",
        "3: expected '(' before the arguments of i, found ')'",
    );
    let deep = format!("{}x", "(".repeat(100_000));
    equation(
        &deep,
        "501: expected at most 500 terms in each other, found '('",
    );
}

#[test]
fn wrong_symbols() {
    equation("f(x) = x", "1: expected a symbol before '(', found 'f'");
    equation("x = i(f(x))", "7: expected a symbol before '(', found 'f'");
    equation("x+y = e", "2: expected '=' or an operator, found '+'");
    equation("+ = e", "1: expected a term, found '+'");
    equation("+(x,y) = e", "1: expected a term, found '+'");
    equation(
        "x = y, z",
        "6: expected the end of the line or an operator, found ','",
    );
    equation("x i y = e", "3: expected '=' or an operator, found 'i'");
}

#[test]
fn missing_and_further_parts() {
    equation("x", "2: expected '=' or an operator, found nothing");
    equation("x*y", "4: expected '=', found nothing");
    equation("= x", "1: expected a term, found '='");
    equation("x = ", "4: expected a term, found nothing");
    equation("x* = e", "4: expected a term, found '='");
    equation(
        "*x = e",
        "2: expected '(' before the arguments of *, found 'x'",
    );
    equation("x y = x", "3: expected '=' or an operator, found 'y'");
    equation(
        "x = y z",
        "7: expected the end of the line or an operator, found 'z'",
    );
    equation(
        "x = y = z",
        "7: expected the end of the line or an operator, found '='",
    );
    equation(
        "x = y # z",
        "7: expected the end of the line or an operator, found '#'",
    );
    equation(
        "x = i(y) rubbish",
        "10: expected the end of the line or an operator, found 'rubbish'",
    );
    equation("x == y", "4: expected a term, found '='");
}

#[test]
fn two_operators_without_brackets() {
    let expected = "expected brackets, since no operator goes before another, found '*'";
    equation("x*y*z = e", &format!("4: {expected}"));
    equation("x = i(x*y*z)", &format!("10: {expected}"));
    equation("x = *(x,y)*z*w", &format!("13: {expected}"));
}

#[test]
fn seventeen_variables() {
    let product = |count: usize| (1..count).fold("x0".to_string(), |t, n| format!("x{n}*({t})"));
    let sixteen = Theory::new(GROUP).equation(&format!("{} = x0", product(16)));
    assert_eq!(sixteen.sides(&[1])[0].len(), 32);
    let seventeen = format!("{} = y", product(16));
    let place = seventeen.len();
    let message = "expected one of the 16 variables before, found 'y'";
    equation(&seventeen, &format!("{place}: {message}"));
}

#[test]
fn wrong_lines() {
    told(
        "",
        "line 1, column 1: expected a line 'symbols ..', found nothing",
    );
    told(
        "# none\n\n",
        "line 3, column 1: expected a line 'symbols ..', found nothing",
    );
    told(
        "symbols e/0/0\n",
        "line 2, column 1: expected a line 'budget ..', found nothing",
    );
    told(
        "symbols e/0/0\n\n  x = x",
        "line 3, column 3: expected a line 'budget ..', found 'x = x'",
    );
    told(
        "budget 9\nsymbols e/0/0",
        "line 1, column 1: expected a line 'symbols ..', found 'budget 9'",
    );
    told(
        "symbolse/0/0",
        "line 1, column 1: expected a line 'symbols ..', found 'symbolse/0/0'",
    );
    let twice = "symbols e/0/0\nbudget 9\nsymbols e/0/0";
    told(
        twice,
        "line 3, column 9: expected '=' or an operator, found 'e'",
    );
    let twice = "symbols e/0/0\nbudget 9\nx = x\n\nbudget 9";
    told(
        twice,
        "line 5, column 8: expected '=' or an operator, found '9'",
    );
}

#[test]
fn wrong_budgets() {
    for (line, column, found) in [
        ("budget", 7, "nothing"),
        ("budget  1000001", 9, "'1000001'"),
        ("budget 99999999999", 8, "'99999999999'"),
        ("budget -1", 8, "'-1'"),
        ("budget +1", 8, "'+1'"),
        ("budget 1 2", 8, "'1 2'"),
        ("\u{a0}budget x", 9, "'x'"),
    ] {
        let expected = "expected a budget from 0 to 1000000";
        let message = format!("line 2, column {column}: {expected}, found {found}");
        told(&format!("symbols e/0/0\n{line}\n"), &message);
    }
}

#[test]
fn wrong_tables() {
    let symbol = "a symbol as name/arity/rank";
    let name = "a word or one sign as a name, then /arity/rank";
    for (symbols, column, expected, found) in [
        ("", 8, "symbols, each as name/arity/rank", "nothing"),
        ("e", 9, symbol, "'e'"),
        ("e/0", 9, symbol, "'e/0'"),
        ("e f/0/0", 9, symbol, "'e'"),
        ("e/0/0 f/1/1 g", 21, symbol, "'g'"),
        ("e/0/x", 13, "a rank from 0 to 15", "'x'"),
        ("e/0/16", 13, "a rank from 0 to 15", "'16'"),
        ("e/0/ f/1/1", 13, "a rank from 0 to 15", "nothing"),
        ("e/0/0 f/5/0", 17, "an arity from 0 to 4", "'5'"),
        ("e//0", 11, "an arity from 0 to 4", "nothing"),
        ("e/0/300", 13, "a rank from 0 to 15", "'300'"),
        ("/0/0", 9, name, "'/0/0'"),
        ("e,/0/0", 9, name, "'e,/0/0'"),
        ("++/2/0", 9, name, "'++/2/0'"),
        ("x+/2/0", 9, name, "'x+/2/0'"),
        ("=/2/0", 9, name, "'=/2/0'"),
        ("'/1/0", 9, name, "''/1/0'"),
        (
            "ä/0/0  e/0/1 e/1/1",
            22,
            "a name that no symbol before has",
            "'e/1/1'",
        ),
    ] {
        let message = format!("line 1, column {column}: expected {expected}, found {found}");
        told(&format!("symbols {symbols}\nbudget 9\n"), &message);
    }
    let names: Vec<String> = (10..27).map(|n| format!("c{n}/0/0")).collect();
    let text = format!("symbols {}\nbudget 9\n", names.join(" "));
    told(
        &text,
        "line 1, column 137: expected at most 16 symbols, found 'c26/0/0'",
    );
}

#[test]
#[should_panic(expected = "line 1, column 2: expected '='")]
fn a_wrong_equation_in_code() {
    Theory::new(GROUP).equation("x+y = x");
}

#[test]
#[should_panic(expected = "line 1, column 3: expected an arity")]
fn a_wrong_table_in_code() {
    Theory::new("e/7/0");
}
