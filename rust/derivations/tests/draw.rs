//! Drawings of derivations: every clause once, every line, nothing over anything else, and never too large.

mod checked;

use std::collections::{BTreeMap, BTreeSet};

use checked::{vectors, Checked};
use yestrwyn_derivations::{dot, svg, Model, Names, IN_FULL};

/// The values of an attribute of all marks that begin so.
fn values<'a>(text: &'a str, mark: &str, name: &str) -> Vec<&'a str> {
    let marks = text.split('<').filter(|part| part.starts_with(mark));
    let value = |part: &'a str| part.split(&format!(" {name}=\"")).nth(1)?.split('"').next();
    marks.filter_map(value).collect()
}

/// Marks open and close in order, and no text holds one.
fn well_formed(text: &str) {
    let mut open = Vec::new();
    for part in text.split('<').skip(1) {
        let (mark, words) = part.split_once('>').expect("a mark ends");
        assert!(!words.contains(['"', '>']), "{words}");
        if let Some(name) = mark.strip_prefix('/') {
            assert_eq!(open.pop(), Some(name), "{mark}");
        } else if !mark.ends_with('/') {
            open.push(mark.split(' ').next().expect("a name"));
        }
    }
    assert!(open.is_empty(), "{open:?}");
}

/// The boxes: left, top, width and height.
fn boxes(text: &str) -> Vec<[f64; 4]> {
    let columns = ["x", "y", "width", "height"].map(|name| values(text, "rect class=\"box\"", name));
    let number = |column: usize, at: usize| columns[column][at].parse().expect("a number");
    (0..columns[0].len()).map(|at| [0, 1, 2, 3].map(|column| number(column, at))).collect()
}

/// No two boxes have a point in common, and all are inside.
fn apart(name: &str, text: &str) {
    let boxes = boxes(text);
    let [width, height]: [f64; 2] =
        ["width", "height"].map(|name| values(text, "svg", name)[0].parse().expect("a number"));
    let mut rows: BTreeMap<i64, Vec<[f64; 4]>> = BTreeMap::new();
    for rect in boxes {
        let [left, top, wide, high] = rect;
        assert!(left > 0.0 && top > 0.0 && left + wide < width && top + high < height, "{name}");
        rows.entry((top + high) as i64).or_default().push(rect);
    }
    let mut below = 0.0;
    for row in rows.values_mut() {
        row.sort_by(|one, other| one[0].total_cmp(&other[0]));
        assert!(row.iter().all(|rect| rect[1] > below), "{name}: a box stands in the layer above");
        assert!(row.windows(2).all(|pair| pair[0][0] + pair[0][2] < pair[1][0]), "{name}: boxes meet");
        below = row[0][1] + row[0][3];
    }
}

/// The lines of a derivation: from which clause to which.
fn lines(model: &Model<'_>, clause: u16) -> Vec<(u16, u16)> {
    let derivation = model.derivation(clause);
    let parents = |&number: &u16| {
        let parents = model.clause(number).expect("a clause").origin.parents();
        parents.into_iter().map(move |parent| (parent, number)).collect::<Vec<_>>()
    };
    derivation.iter().flat_map(parents).collect()
}

#[test]
fn every_stored_derivation_is_drawn() {
    let names = Names::none();
    let mut compact = 0;
    for checked in vectors() {
        let model = checked.model();
        let Some(accepted) = model.accepted() else { continue };
        let text = svg(&model, &names, accepted);
        well_formed(&text);
        apart(&checked.name, &text);
        let clauses = model.derivation(accepted).len();
        assert_eq!(boxes(&text).len(), clauses, "{}", checked.name);
        assert!(text.len() < 2_000 + 4_000 * clauses, "{} takes {} bytes", checked.name, text.len());
        let words = values(&text, "text class=\"words\"", "x").len();
        match clauses > IN_FULL {
            true => compact += 1,
            false => assert_eq!(words, lines(&model, accepted).len(), "{}", checked.name),
        }
    }
    assert!(compact > 1, "{compact} are drawn in the compact form");
}

#[test]
fn the_graph_has_every_clause_and_every_line() {
    let names = Names::none();
    for checked in vectors() {
        let model = checked.model();
        let Some(accepted) = model.accepted() else { continue };
        let text = dot(&model, &names, accepted);
        let mut clauses = BTreeSet::new();
        let mut drawn = Vec::new();
        let number = |word: &str| word.strip_prefix('c').and_then(|word| word.parse::<u16>().ok());
        for line in text.lines() {
            let words: Vec<&str> = line.split_whitespace().collect();
            match words[..] {
                [from, "->", to, ..] => drawn.extend(number(from).zip(number(to))),
                [clause, ..] if line.contains("[label=") => assert!(clauses.insert(number(clause))),
                _ => {}
            }
        }
        assert_eq!(drawn, lines(&model, accepted), "{}", checked.name);
        let expected: BTreeSet<Option<u16>> = model.derivation(accepted).into_iter().map(Some).collect();
        assert_eq!(clauses, expected, "{}", checked.name);
    }
}

#[test]
fn the_curfew() {
    let checked = Checked::stored("curfew", 0);
    let names = Names::read("s0 departs\ns5 Lakeside\ns6 21:40\ns7 22:20").expect("names");
    let model = checked.model();
    let picture = svg(&model, &names, 11);
    for words in [">clause 0<", ">+departs(21:40)<", ">no literal is left<", ">left 2<", ">right 1<"] {
        assert!(picture.contains(words), "{words}");
    }
    assert_eq!(values(&picture, "g class=\"input\"", "class").len(), 6);
    let graph = dot(&model, &names, 11);
    assert!(
        graph.contains("  c0 [label=\"clause 0\\n+departs(21:40)\\n+departs(22:20)\", fillcolor"),
        "{graph}"
    );
    assert!(graph.contains("  c10 -> c11 [label=\"left 1\"];\n"), "{graph}");
}

#[test]
fn a_clause_resolved_with_itself_and_a_factor() {
    let checked = vectors().iter().find(|checked| {
        let model = checked.model();
        let drawn = model.accepted().map_or_else(Vec::new, |accepted| lines(&model, accepted));
        drawn.windows(2).any(|pair| pair[0] == pair[1])
    });
    let checked = checked.expect("a clause that is resolved with itself");
    let model = checked.model();
    let accepted = model.accepted().expect("accepted");
    let text = dot(&model, &Names::none(), accepted);
    let twice = lines(&model, accepted).windows(2).find(|pair| pair[0] == pair[1]).expect("twice")[0];
    assert_eq!(text.matches(&format!("  c{} -> c{} ", twice.0, twice.1)).count(), 2);
    let duty = Checked::stored("duty", 0);
    assert!(dot(&duty.model(), &Names::none(), 15).contains("  c7 -> c8 [label=\"keeps 1, drops 2\"];\n"));
}
