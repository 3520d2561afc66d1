//! The deepest files through the proved check and readout, and their first clause compared with itself, with the file and
//! all tables on the stack: run it under `ulimit -s 4096`. With the argument `canonical` the second readout too, which takes
//! half a MiB more: under `ulimit -s 4608`.

use yestrwyn::{check_here, covers_here, write_canonical_readout_here, write_readout_here, Tables, ENOUGH};
use yestrwyn_types::limits::{BINDING_CELLS, CLAUSE_CELLS, ROW_CELLS, SYMBOL_CELLS};
use yestrwyn_vectors::examples::deep;

fn main() -> std::io::Result<()> {
    let canonical = std::env::args().nth(1).is_some_and(|word| word == "canonical");
    for example in deep::examples() {
        let mut file = [0u8; 65536];
        let length = example.file.len();
        file[..length].copy_from_slice(&example.file);
        let mut symbols = [0u16; SYMBOL_CELLS];
        let mut rows = [0u16; ROW_CELLS];
        let mut clauses = [0u16; CLAUSE_CELLS];
        let mut bindings = [0u16; BINDING_CELLS];
        let mut tables =
            Tables { symbols: &mut symbols, rows: &mut rows, clauses: &mut clauses, bindings: &mut bindings };
        println!("{:32} {}", example.name, check_here(0, &file[..length], &mut tables));
        let (mut output, mut text) = (vec![0; ENOUGH], Vec::new());
        write_readout_here(0, &file[..length], &mut tables, &mut output, &mut text)?;
        println!("{:32} {} bytes of readout", "", text.len());
        if canonical {
            text.clear();
            write_canonical_readout_here(0, &file[..length], &mut tables, &mut output, &mut text)?;
            println!("{:32} {} bytes of the second readout", "", text.len());
        }
        println!("{:32} {:?}", "", covers_here(&file[..length], 0, 0, &mut tables).outcome);
    }
    Ok(())
}
