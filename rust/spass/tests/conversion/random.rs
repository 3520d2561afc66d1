//! Random problems, where SPASS is installed: whatever it proves is converted and accepted, or refused by a limit that is named.

use std::fs;
use std::process::Command;

use yestrwyn_spass::{proof_file, Fault};

use crate::running::{accepted, spass_is_installed};

/// How many problems are tried.
const PROBLEMS: u64 = 60;

/// Ways to run SPASS, so that different inferences occur.
const WAYS: [&str; 6] = [
    "",
    "-Splits=0 -IORe=1 -IOFc=1",
    "-Splits=0 -Auto=0 -ISHy=1 -IOFc=1 -RFSub=1 -RBSub=1 -RObv=1 -RCon=1",
    "-Splits=0 -Auto=0 -IOHy=1 -ISFc=1 -RFSub=1 -RBSub=1",
    "-Splits=0 -Auto=0 -IURR=1 -ISRe=1 -ISFc=1 -RFSub=1 -RUnC=1",
    "-Sorts=2",
];

/// Numbers that look random and are the same each time.
struct Draw(u64);

impl Draw {
    fn below(&mut self, bound: usize) -> usize {
        self.0 = self.0.wrapping_mul(6_364_136_223_846_793_005).wrapping_add(1_442_695_040_888_963_407);
        usize::try_from(self.0 >> 33).expect("31 bits") % bound
    }

    fn term(&mut self, depth: usize) -> String {
        match self.below(8) {
            0 if depth > 0 => format!("f({})", self.term(depth - 1)),
            1 if depth > 0 => format!("g({},{})", self.term(depth - 1), self.term(depth - 1)),
            0..=2 => ["a", "b", "c"][self.below(3)].to_string(),
            _ => ["X", "Y", "Z"][self.below(3)].to_string(),
        }
    }

    fn literal(&mut self) -> String {
        let atom = match self.below(6) {
            0 => "o".to_string(),
            1..=3 => format!("{}({})", ["p", "q", "m"][self.below(3)], self.term(1)),
            _ => format!("{}({},{})", ["r", "t"][self.below(2)], self.term(1), self.term(1)),
        };
        if self.below(2) == 0 {
            atom
        } else {
            format!("not({atom})")
        }
    }

    fn clause(&mut self) -> String {
        let literals: Vec<String> =
            (0..[1, 2, 2, 3, 3, 4, 7][self.below(7)]).map(|_| self.literal()).collect();
        let body = format!("or({})", literals.join(","));
        let variables: Vec<&str> =
            ["X", "Y", "Z"].into_iter().filter(|variable| body.contains(variable)).collect();
        match variables.is_empty() {
            true => format!("clause({body}).\n"),
            false => format!("clause(forall([{}],{body})).\n", variables.join(",")),
        }
    }

    fn problem(&mut self) -> String {
        let count = 10 + self.below(30);
        let clauses: String = (0..count).map(|_| self.clause()).collect();
        format!(
            "begin_problem(R).\nlist_of_descriptions.\nname({{*r*}}).\nauthor({{*r*}}).\nstatus(unknown).\ndescription({{*r*}}).\nend_of_list.\n\
             list_of_symbols.\nfunctions[(a,0),(b,0),(c,0),(f,1),(g,2)].\npredicates[(o,0),(p,1),(q,1),(m,1),(r,2),(t,2)].\nend_of_list.\n\
             list_of_clauses(axioms, cnf).\n{clauses}end_of_list.\nend_problem.\n"
        )
    }
}

#[test]
fn what_spass_proves_of_random_problems_is_accepted() {
    if !spass_is_installed() {
        return;
    }
    let path = std::env::temp_dir().join(format!("yestrwyn-spass-{}.dfg", std::process::id()));
    let mut proved = 0;
    for seed in 0..PROBLEMS {
        let mut draw = Draw(seed);
        fs::write(&path, draw.problem()).expect("a file");
        let way = WAYS[draw.below(WAYS.len())];
        let output = Command::new("SPASS")
            .args(["-DocProof", "-TimeLimit=1"])
            .args(way.split_whitespace())
            .arg(&path)
            .output();
        let text = String::from_utf8(output.expect("SPASS").stdout).expect("text");
        if !text.contains("Proof found.") {
            continue;
        }
        proved += 1;
        match proof_file(&text).map_err(|error| error.fault) {
            Err(Fault::Uses(_) | Fault::EmptyInput) => {}
            _ => drop(accepted(&format!("{seed} {way}"), &text)),
        }
    }
    fs::remove_file(&path).expect("the file");
    assert!(proved > 15, "{proved} proved");
}
