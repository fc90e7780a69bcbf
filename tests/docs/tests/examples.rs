//! The script that the README explains and the one that the manual page shows are `examples/first.script`, which the gate runs.
use docs::read;

/// A displayed block of the manual page, as a terminal shows it.
fn shown(number: usize) -> String {
    let page = read("docs/rampscript.1");
    let block = page.split(".EX\n").nth(number);
    let lines = block.and_then(|rest| rest.split(".EE").next());
    lines.expect("a block").replace("\\-", "-")
}

/// A column of the table in the README's section on the first script, without its heading.
fn column(number: usize) -> String {
    let readme = read("README.md");
    let section = readme.split("## A first script").nth(1).expect("a section");
    let rows = section.lines().filter(|line| line.starts_with("| `"));
    let cell = |row: &str| {
        row.split('|')
            .nth(number)
            .expect("a cell")
            .trim()
            .replace('`', "")
    };
    rows.take(7).map(|row| cell(row) + "\n").collect()
}

#[test]
fn the_first_script() {
    let script = read("examples/first.script");
    assert_eq!(column(1), script);
    assert_eq!(shown(1), script);
}

#[test]
fn its_answers() {
    let answers = read("examples/first.out");
    assert_eq!(column(2), answers);
    assert_eq!(shown(2), answers);
}
