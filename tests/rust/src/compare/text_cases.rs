//! Texts that were chosen, each with the number that it is due.

/// A flag at x with something before it; a range with a bound.
fn rule(before: &str) -> String {
    format!("monitor x : {before}@x.0")
}

fn range(first: &str, second: &str) -> String {
    format!("monitor x : forall y in {first}..{second} : @y.0")
}

/// All of them.
pub(super) fn chosen() -> Vec<(String, u32)> {
    let mut all = spellings();
    all.extend(keywords());
    all.extend(limits());
    all.extend(orders());
    all
}

fn spellings() -> Vec<(String, u32)> {
    let rules = [
        ("", 25),
        ("monitor x : @x.0", 0),
        ("monitor x : @x.0\n", 25),
        ("monitor x : @x.0\r", 25),
        ("monitor x : @x.0\0", 25),
        ("monitor x : @x.0 ", 25),
        (" monitor x : @x.0", 25),
        ("monitor  x : @x.0", 25),
        ("monitor x: @x.0", 25),
        ("monitor x :@x.0", 25),
        ("monitor x : (@x.0)", 25),
        ("monitor x : @x.00", 25),
        ("monitor x : @x.", 25),
        ("monitor x : @X.0", 25),
        ("monitor X : @X.0", 25),
        ("monitor x1 : @x.0", 25),
        ("monitor  : @x.0", 25),
        ("Monitor x : @x.0", 25),
        ("monitor x : ~@x.0", 0),
        ("monitor x : ~ @x.0", 25),
        ("monitor x : ~~@x.0", 0),
        ("monitor x : (@x.0 && @x.1)", 0),
        ("monitor x : (@x.0 /\\ @x.1)", 0),
        ("monitor x : (@x.0 & @x.1)", 25),
        ("monitor x : (@x.0 \\/ @x.1)", 25),
        ("monitor x : (@x.0 && @x.1", 25),
        ("monitor x : (@x.0 && @x.1))", 25),
        ("monitor x : @x.0 && @x.1", 25),
        ("monitor x : (@x.0 && @x.1 && @x.2)", 25),
        ("monitor x : ( @x.0 && @x.1)", 25),
        ("monitor x : (@x.0 && @x.1 )", 25),
        ("monitor x : (@x.0&&@x.1)", 25),
        ("monitor abcdefgh : @abcdefgh.0", 0),
        ("monitor abcdefghi : @abcdefghi.0", 25),
        ("monitor x : forall abcdefgh in x..x : @abcdefgh.0", 0),
        ("monitor x : forall abcdefghi in x..x : @x.0", 25),
        ("monitor x : forall y in x..infinitys : @y.0", 25),
        ("monitor abcdefgh : forall y in abcdefgh..abcdefgh-1 : @y.0", 0),
        ("monitor x : forall y in abcdefghi..x : @y.0", 25),
        ("monitor x : @abcdefghi.0", 25),
        ("monitor x : forall y in x ..x : @y.0", 25),
        ("monitor x : forall y in x.. x : @y.0", 25),
        ("monitor x : forall y in x.x : @y.0", 25),
        ("monitor x : forall y in x...x : @y.0", 25),
        ("monitor x : forally in x..x : @y.0", 25),
        ("monitor x : forall y inx..x : @y.0", 25),
        ("monitor x : forall y in x..x: @y.0", 25),
        ("monitor x : forall y in x..x : ", 25),
        ("monitor x : forall y in 5..x : @y.0", 25),
        ("monitor x : forall y in 00..x : @y.0", 25),
        ("monitor x : forall y in -1..x : @y.0", 25),
        ("monitor x : (forall y in x..x : @y.0 && @x.0)", 0),
        ("monitor x : (forall y in x..x : @y.0 && @y.0)", 26),
        ("monitor x : forall y in x..x : (@y.0 && @y.0)", 0),
        ("monitor x : (@y.0 && forall y in x..x : @y.0)", 26),
        ("monitor y : @x.0", 26),
        ("monitor x : forall x in x..x : @x.0", 0),
        ("monitor x : forall y in y..x : @y.0", 26),
        ("monitor x : forall y in x..y : @y.0", 26),
        ("monitor x : forall y in x..x : forall y in y..y : @y.0", 0),
    ];
    let bounds = [
        ("0", 0),
        ("0+5", 0),
        ("0-5", 0),
        ("0+4095", 0),
        ("0+4096", 8),
        ("x-0", 0),
        ("x+0", 0),
        ("x+0001", 0),
        ("x-0001", 0),
        ("x+00001", 25),
        ("x+1", 0),
        ("x+1+1", 25),
        ("x+", 25),
        ("x-", 25),
        ("x+-1", 25),
        ("x + 1", 25),
        ("x+4095", 0),
        ("x-4095", 0),
        ("x+4096", 8),
        ("x-4096", 8),
        ("x+9999", 8),
        ("x-9999", 8),
        ("x+10000", 25),
        ("infinity", 0),
        ("infinity+0", 0),
        ("infinity-0", 0),
        ("infinity+0000", 0),
        ("infinity+1", 24),
        ("infinity-1", 24),
        ("infinity+4096", 24),
        ("infinity+00000", 25),
        ("infinit", 26),
        ("+1", 25),
        ("", 25),
        ("y", 26),
        ("1", 25),
    ];
    let mut all: Vec<(String, u32)> =
        rules.iter().map(|(text, due)| (text.to_string(), *due)).collect();
    for (bound, due) in bounds {
        all.push((range(bound, "x"), due));
        all.push((range("x", bound), due));
    }
    let flags =
        (0..10).map(|flag| (format!("monitor x : @x.{flag}"), if flag > 7 { 7 } else { 0 }));
    all.extend(flags);
    all
}

/// Each word that is no name, in every place of a name.
fn keywords() -> Vec<(String, u32)> {
    let mut all = Vec::new();
    for word in ["monitor", "forall", "in", "infinity"] {
        all.extend(in_places(word).map(|text| (text, 25)));
        // In a bound infinity is no name, but right.
        let bound = if word == "infinity" { 0 } else { 25 };
        all.extend([range(word, "x"), range("x", word)].map(|text| (text, bound)));
        // A letter less, or another one in place of the last, makes it a name.
        let short = &word[..word.len() - 1];
        for name in [short.to_string(), format!("{short}z")] {
            let [own, inner, unbound] = in_places(&name);
            all.extend([(own, 0), (inner, 0), (unbound, 26), (range(&name, "x"), 26)]);
            all.push((format!("monitor {name} : forall y in {name}..{name}+1 : @y.0"), 0));
        }
    }
    all
}

/// A name that the rule binds, one that a range binds, and one that nobody binds.
fn in_places(name: &str) -> [String; 3] {
    [
        format!("monitor {name} : @{name}.0"),
        format!("monitor x : forall {name} in x..x : @{name}.0"),
        format!("monitor x : @{name}.0"),
    ]
}

/// Long and deep texts.
fn limits() -> Vec<(String, u32)> {
    let nots = |count: usize| rule(&"~".repeat(count));
    let brackets = |count: usize| {
        format!("monitor x : {}@x.0{}", "(".repeat(count), " && @x.0)".repeat(count))
    };
    let second = |count: usize| {
        format!("monitor x : {}@x.0{}", "(@x.0 /\\ ".repeat(count), ")".repeat(count))
    };
    let ranges = |count: usize| rule(&"forall y in 0..0 : ".repeat(count));
    let names = |count: usize| rule(&"forall y in x..x+0001 : ".repeat(count));
    vec![
        (nots(63), 0),
        (nots(64), 9),
        (nots(4_079), 9),
        (nots(4_080), 9),
        (nots(4_081), 25),
        (nots(4_079) + " ", 25),
        (nots(4_080) + " ", 25),
        (nots(100_000), 25),
        (format!("monitor x : {}", "~".repeat(4_084)), 25),
        (format!("monitor x : {}", "(".repeat(4_080)), 25),
        (format!("monitor x : {}", "(".repeat(4_084)), 25),
        (brackets(31), 0),
        (brackets(32), 9),
        (brackets(408), 9),
        (brackets(409), 25),
        (second(31), 0),
        (second(32), 9),
        (second(408), 9),
        (second(409), 25),
        (ranges(4), 0),
        (ranges(5), 9),
        (ranges(100), 9),
        (ranges(214), 9),
        (ranges(215), 25),
        (names(170), 9),
        (names(4), 0),
    ]
}

/// Two faults at once: the whole text is read first, then all names are looked up, then
/// the body's bytes are judged in their order.
fn orders() -> Vec<(String, u32)> {
    let all = [
        ("monitor x : (@y.0 && @x.0", 25),
        ("monitor x : @y.0 ", 25),
        ("monitor x : (@x.8 && @x.0", 25),
        ("monitor x : (@x.8 && @y.0)", 26),
        ("monitor x : (@x.9 && forall z in z..x : @z.0)", 26),
        ("monitor x : forall z in x+4096..q : @z.0", 26),
        ("monitor x : forall z in x+4096..x : @z.8", 8),
        ("monitor x : (@x.8 && forall z in x+4096..x : @z.0)", 7),
        ("monitor x : forall z in infinity+9999..x+9999 : @z.8", 24),
        ("monitor x : forall z in x+9999..infinity+9999 : @z.8", 8),
    ];
    let mut all: Vec<(String, u32)> =
        all.iter().map(|(text, due)| (text.to_string(), *due)).collect();
    let deep = "forall y in x..x : ".repeat(5);
    all.push((format!("monitor x : {deep}@q.0"), 26));
    all.push((format!("monitor x : {deep}@y.8"), 9));
    all.push((format!("monitor x : (@x.8 && {deep}@y.8)"), 7));
    all.push((format!("monitor x : {}@q.0", "~".repeat(4_000)), 26));
    all.extend(deep_names());
    all
}

/// Names that two hundred ranges bind, and no longer bind after them.
fn deep_names() -> Vec<(String, u32)> {
    let ranges = |name: &str, count: usize| format!("forall {name} in 0..0 : ").repeat(count);
    let deep = ranges("a", 100) + "forall b in x..a : " + &ranges("c", 100);
    vec![
        (format!("monitor x : {deep}@b.0"), 9),
        (format!("monitor x : {deep}@a.0"), 9),
        (format!("monitor x : {deep}@d.0"), 26),
        (format!("monitor x : {deep}forall d in d..x : @d.0"), 26),
        (format!("monitor x : ({deep}@c.0 && @x.0)"), 9),
        (format!("monitor x : ({deep}@c.0 && @b.0)"), 26),
        (format!("monitor x : ({deep}@c.0 && @c.0)"), 26),
        (format!("monitor x : forall b in 0..0 : ({deep}@c.0 && @b.0)"), 9),
    ]
}
