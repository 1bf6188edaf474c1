//! Fixed theories: those of the source papers and some with a known end.

use crate::notation::Theory;

/// e, i, * with i above * above e.
pub const GROUP: &str = "e/0/0 i/1/2 */2/1";
/// 0, s, p, +, - with + and - above s and p.
pub const ARITHMETIC: &str = "0/0/0 s/1/1 p/1/2 +/2/3 -/2/4";

/// 0, s, a constant, and two counters.
pub const COUNTDOWN: &str = "0/0/0 s/1/1 a/0/2 w/4/3 f/4/4";

/// 0, s, a constant, and the digits of `digits`.
pub const DIGITS: &str = "0/0/0 a/0/1 s/1/2 f/4/3 g/4/4";

/// A name and its theory.
type Named = (&'static str, fn() -> Theory);

/// The theories of the source papers.
pub const PAPERS: [Named; 6] = [
    ("001 three axioms", fragment_axioms),
    ("001 printed list", fragment_rules),
    ("002 group axioms", group_axioms),
    ("002 ten rules", group_rules),
    ("003 six rules", arithmetic_axioms),
    ("003 ten rules", arithmetic_rules),
];

/// The three group axioms of 002.
pub fn group_axioms() -> Theory {
    Theory::new(GROUP).equations(&["*(e,x) = x", "*(i(x),x) = e", "*(x,*(y,z)) = *(*(x,y),z)"])
}

/// The ten group rules of 002 as equations.
pub fn group_rules() -> Theory {
    Theory::new(GROUP).equations(&[
        "*(e,x) = x",
        "*(i(x),x) = e",
        "*(*(x,y),z) = *(x,*(y,z))",
        "*(i(x),*(x,y)) = y",
        "i(e) = e",
        "*(x,e) = x",
        "i(i(x)) = x",
        "*(x,i(x)) = e",
        "*(x,*(i(x),y)) = y",
        "i(*(x,y)) = *(i(y),i(x))",
    ])
}

/// The three axioms of 001.
pub fn fragment_axioms() -> Theory {
    Theory::new(GROUP).equations(&["*(x,e) = x", "*(e,x) = x", "*(i(x),*(x,y)) = y"])
}

/// The list printed at the end of 001, with i(e) = e twice.
pub fn fragment_rules() -> Theory {
    Theory::new(GROUP).equations(&[
        "*(x,e) = x",
        "*(e,x) = x",
        "*(i(x),*(x,y)) = y",
        "*(i(x),x) = e",
        "i(e) = e",
        "i(e) = e",
        "*(x,i(x)) = e",
        "i(i(x)) = x",
        "*(x,*(i(x),y)) = y",
    ])
}

/// The six rules 003 begins with.
pub fn arithmetic_axioms() -> Theory {
    Theory::new(ARITHMETIC).equations(&[
        "+(x,0) = x",
        "+(x,s(y)) = s(+(x,y))",
        "-(x,0) = x",
        "-(x,s(y)) = p(-(x,y))",
        "p(s(x)) = x",
        "s(p(x)) = x",
    ])
}

/// The same, with one rank for + and -, and one for s and p.
pub fn unranked_arithmetic() -> Theory {
    arithmetic_axioms().with_ranks(&[0, 1, 1, 2, 2])
}

/// x-y = x+n(y), where - has this rank and + rank 1.
pub fn difference(rank: u8) -> Theory {
    Theory::new(&format!("n/1/0 +/2/1 -/2/{rank}")).equation("-(x,y) = +(x,n(y))")
}

/// Equations over f and g of one rank, with a constant below.
pub fn one_rank(equation: &str) -> Theory {
    Theory::new("c/0/0 f/1/1 g/1/1").equation(equation)
}

/// The ten rules of 003.
pub fn arithmetic_rules() -> Theory {
    arithmetic_axioms().equations(&[
        "s(+(x,p(y))) = +(x,y)",
        "p(-(x,p(y))) = -(x,y)",
        "+(x,p(y)) = p(+(x,y))",
        "-(x,p(y)) = s(-(x,y))",
    ])
}

/// The symbol applied n times: "s(s(0))".
pub fn power(symbol: &str, n: usize, inside: &str) -> String {
    let open = format!("{symbol}(").repeat(n);
    format!("{open}{inside}{}", ")".repeat(n))
}

/// A monoid by unary symbols: generators as letters, relations "aba=bab".
/// Rank ascends with the letter's place.
pub fn monoid(generators: &str, relations: &[&str]) -> Theory {
    let symbols = generators
        .chars()
        .enumerate()
        .map(|(i, g)| format!("{g}/1/{i}"));
    let signature: Vec<String> = symbols.collect();
    let mut theory = Theory::new(&signature.join(" "));
    for relation in relations {
        let (left, right) = relation.split_once('=').expect("a relation");
        theory = theory.equation(&format!("{} = {}", word(left), word(right)));
    }
    theory
}

fn word(letters: &str) -> String {
    let open: String = letters.chars().map(|g| format!("{g}(")).collect();
    format!("{open}X{}", ")".repeat(letters.len()))
}

/// Rules f g^n f over without end: ends 23 by the 33rd rule.
pub fn endless_rules() -> Theory {
    Theory::new("g/1/0 f/1/1").equation("f(g(f(x))) = g(f(x))")
}

/// At most six outer rules times inner rules: each pair of them overlaps
/// and makes one rule more, (outer + 1)(inner + 1) - 1 in all.
pub fn products(outer: usize, inner: usize) -> Theory {
    with_products(outer, inner, "", &[])
}

/// Products with further symbols, "m/2 k/3", ranked above the others as they
/// are named, and equations. The last rule that an overlap makes is
/// B(u,t^n(0)) = e(u,s^n(0)), n inner rules and B the last outer symbol.
pub fn with_products(outer: usize, inner: usize, symbols: &str, equations: &[&str]) -> Theory {
    let lower = ["0/0", "s/1", "t/1", "b/1", "e/2"];
    let names = ["A", "B", "C", "D", "E", "F"];
    let own = lower.into_iter().map(String::from);
    let own = own.chain(names.iter().map(|name| format!("{name}/2")));
    let further = symbols.split_whitespace().map(String::from);
    let mut theory = Theory::new(&ranked(own.chain(further)));
    for j in 1..=inner {
        let (from, to) = (power("s", j, "0"), power("t", j, "0"));
        theory = theory.equation(&format!("b({from}) = {to}"));
    }
    for name in &names[..outer] {
        theory = theory.equation(&format!("{name}(u,b(x)) = e(u,x)"));
    }
    theory.equations(equations)
}

/// A signature of names with arities, "s/1", whose ranks ascend from 0.
fn ranked(symbols: impl Iterator<Item = String>) -> String {
    let ranked = (0..).zip(symbols);
    let list: Vec<String> = ranked.map(|(rank, s)| format!("{s}/{rank}")).collect();
    list.join(" ")
}

/// P_k(s^n(x)) = a loses one s a rule, and each new rule removes the one
/// before: a log of many entries with few live rules. One chain a length.
pub fn descents(lengths: &[usize]) -> Theory {
    after_descents(lengths, "", &[])
}

/// Descents with further symbols, "b/0 k/3", ranked above the others as they
/// are named, and equations. P_k(b) has no overlap with P_k(s^n(x)) = a and
/// becomes a only when the chain's last rule, P_k(x) = a, is made.
pub fn after_descents(lengths: &[usize], symbols: &str, equations: &[&str]) -> Theory {
    let chains = (0..lengths.len()).map(|k| format!("P{k}/1"));
    let names = ["a/0", "s/1", "u/1"].map(String::from).into_iter();
    let further = symbols.split_whitespace().map(String::from);
    let signature = ranked(names.chain(chains).chain(further));
    let mut theory = Theory::new(&signature).equation("u(a) = a");
    for (k, n) in lengths.iter().enumerate() {
        theory = theory
            .equation(&format!("u(P{k}(s(x))) = P{k}(x)"))
            .equation(&format!("P{k}({}) = a", power("s", *n, "x")));
    }
    theory.equations(equations)
}

/// t(z0,t(z1,.. c)), so many variables.
fn tuple(variables: usize) -> String {
    let list = (0..variables).map(|i| format!("z{i}"));
    list.rfold("c".to_string(), |rest, z| format!("t({z},{rest})"))
}

/// An overlap whose pair has `extra` variables besides four others, neither
/// side above the other.
pub fn many_variables(extra: usize) -> Theory {
    let tuple = tuple(extra);
    Theory::new("c/0/0 t/2/1 q/2/2 h/1/3 f/4/4 k/2/5")
        .equation("h(f(x,y,z,w)) = c")
        .equation(&format!("k(h(y),{tuple}) = q(y,{tuple})"))
}

/// The same with a pair that can be oriented.
pub fn many_variables_oriented(extra: usize) -> Theory {
    let tuple = tuple(extra);
    Theory::new("c/0/0 t/2/1 q/2/2 g/4/3 f/4/4 h/1/5 k/2/6")
        .equation("h(f(x,y,z,w)) = g(w,x,y,z)")
        .equation(&format!("k(h(y),{tuple}) = q(y,{tuple})"))
}

/// d(s(x)) = s(s(d(x))) on so many d: each doubles the s below it.
pub fn growing(d: usize, s: usize) -> Theory {
    let nested = power("d", d, &power("s", s, "0"));
    Theory::new("0/0/0 s/1/1 d/1/2 a/0/3")
        .equations(&["d(0) = 0", "d(s(x)) = s(s(d(x)))"])
        .equation(&format!("{nested} = a"))
}

/// An overlap whose left side has 2n + 5 nodes: the inner rule doubles a part
/// of the outer left side.
pub fn large_left(n: usize) -> Theory {
    Theory::new("0/0/0 s/1/1 t/2/2 h/2/3 k/2/4")
        .equation(&format!("k(h({},z),z) = 0", power("s", n, "0")))
        .equation("h(x,0) = t(x,x)")
}

/// An overlap whose right side has 2n + 3 nodes: the outer rule doubles a part
/// of the inner left side.
pub fn large_right(n: usize) -> Theory {
    Theory::new("0/0/0 s/1/1 t/2/2 h/1/3 k/1/4")
        .equation(&format!("h({}) = 0", power("s", n, "0")))
        .equation("k(h(x)) = t(x,x)")
}

/// Two left sides whose common instance doubles n times.
pub fn large_peak(n: usize) -> Theory {
    let (mut first, mut second) = ("c".to_string(), "c".to_string());
    for i in (1..=n).rev() {
        let before = i - 1;
        first = format!("t(x{i},t(f(x{i},x{i}),{first}))");
        second = format!("t(f(y{before},y{before}),t(y{i},{second}))");
    }
    Theory::new("c/0/0 d/0/1 t/2/2 f/2/3")
        .equation(&format!("{first} = c"))
        .equation(&format!("{second} = d"))
}

/// A step to n + 4 nodes, by h(x) to s(s(x)).
pub fn long_step(n: usize) -> Theory {
    Theory::new("a/0/0 s/1/1 h/1/2")
        .equation("h(x) = s(s(x))")
        .equation(&format!("s(h({})) = a", power("s", n, "a")))
}

/// Two nested counters run down by rewriting, three digits outside and two
/// inside, each from s^n(0): about (n + 1)^5 steps for each of the equations.
pub fn countdown(n: usize, equations: usize) -> Theory {
    let full = power("s", n, "0");
    let mut theory = Theory::new(COUNTDOWN).equations(&[
        "w(x,s(y),v,z) = w(x,y,v,z)",
        "w(s(x),0,v,z) = w(x,v,v,z)",
        "w(0,0,v,z) = z",
        "f(x,y,s(z),v) = f(x,y,z,w(v,v,v,v))",
        "f(x,s(y),0,v) = f(x,y,v,v)",
        "f(s(x),0,0,v) = f(x,v,v,v)",
        "f(0,0,0,v) = a",
    ]);
    for _ in 0..equations {
        theory = theory.equation(&format!("f({full},{full},{full},{full}) = a"));
    }
    theory
}

/// Three digits inside, f, that run down to a, and two outside, g, that go on
/// only then and set them anew: one node matches at a time, so that every
/// strategy makes the same steps.
pub fn digits() -> Theory {
    Theory::new(DIGITS).equations(&[
        "f(x,y,s(z),v) = f(x,y,z,v)",
        "f(x,s(y),0,v) = f(x,y,v,v)",
        "f(s(x),0,0,v) = f(x,v,v,v)",
        "f(0,0,0,v) = a",
        "g(x,s(y),v,a) = g(x,y,v,f(v,v,v,v))",
        "g(s(x),0,v,a) = g(x,v,v,f(v,v,v,v))",
    ])
}
