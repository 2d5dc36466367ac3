//! The bench program: document 01's sample with M-104's `lines=` in each block, and the readings A1 to A17 and C21.

use second::core::Second;
use second::script::run;

const SAMPLE: &str = "rows=2\ncols=4\nstore=16\ntext=11\na=1\nbb=22\nc\nkey=move-left-line-end\nkey=move-right-line-end\n";
const BLOCKS: [&str; 3] = [
    "code=0\nsteps=0\nlines=0\nbell=0\nfirst=1\nlast=2\nrow=1\ncol=0\nline=a=1 \nline=bb=2\n",
    "code=0\nsteps=0\nlines=0\nbell=1\nfirst=0\nlast=0\nrow=1\ncol=0\nline=a=1 \nline=bb=2\n",
    "code=0\nsteps=3\nlines=0\nbell=0\nfirst=0\nlast=0\nrow=1\ncol=3\nline=a=1 \nline=bb=2\n",
];
/// An opening of nothing on one cell, and its block.
const NOTHING: &str = "rows=1\ncols=1\nstore=1\ntext=0\n\n";
const OPENED: &str = "code=0\nsteps=0\nlines=0\nbell=0\nfirst=1\nlast=1\nrow=1\ncol=0\nline= \n";
const QUOTED: &str = "code=0\nsteps=0\nlines=0\nbell=0\nfirst=1\nlast=1\nrow=1\ncol=1\nline=>\n";

fn gives(input: impl AsRef<[u8]>, output: impl AsRef<str>) {
    let (input, output) = (input.as_ref(), output.as_ref());
    assert_eq!(String::from_utf8_lossy(&run(&Second, input)), output, "for {:?}", String::from_utf8_lossy(input));
}

#[test]
fn the_sample() {
    gives(SAMPLE, BLOCKS.concat());
    // The last key line may lack its newline.
    gives(SAMPLE.trim_end(), BLOCKS.concat());
}

#[test]
fn what_was_run_before_an_unreadable_line_stays_printed() {
    gives(format!("{SAMPLE}key=none\n"), BLOCKS.concat() + "script=10\n");
    gives(format!("{SAMPLE}\n"), BLOCKS.concat() + "script=10\n");
    gives(format!("{NOTHING}key=quote\nkey=\nkey=quote\n"), format!("{OPENED}{QUOTED}script=7\n"));
    gives(format!("{NOTHING}\n"), format!("{OPENED}script=6\n"));
    gives(NOTHING, OPENED);
}

#[test]
fn a_refused_opening_ends_the_program() {
    gives("rows=0\ncols=1\nstore=1\ntext=0\n\nkey=none\n", "code=1\nplace=0\n");
    gives("rows=99999\ncols=99999\nstore=1\ntext=0\n\n", "code=1\nplace=0\n");
    gives("rows=1\ncols=257\nstore=1\ntext=0\n\n", "code=1\nplace=0\n");
    gives("rows=1\ncols=1\nstore=0\ntext=1\n\t\n", "code=1\nplace=0\n");
    gives("rows=1\ncols=1\nstore=1\ntext=2\n\t\t\n", "code=2\nplace=0\n");
    gives("rows=1\ncols=1\nstore=3\ntext=3\na\tb\n", "code=3\nplace=1\n");
}

#[test]
fn a_store_that_is_too_large() {
    gives("rows=1\ncols=1\nstore=4096\ntext=0\n\n", OPENED);
    gives("rows=1\ncols=1\nstore=4097\ntext=0\n\n", "script=0\n");
    gives("rows=0\ncols=1\nstore=5000\ntext=0\n\n", "script=0\n");
    gives("rows=1\ncols=1\nstore=99999\ntext=0\n\n", "script=0\n");
    gives("rows=1\ncols=1\nstore=100000\ntext=0\n\n", "script=3\n");
    gives("rows=1\ncols=1\nstore=5000\ntext=3\nab\n", "script=4\n");
}

#[test]
fn missing_text() {
    for end in ["text=3\nab\n", "text=2\nab", "text=2\nabx\n", "text=0\nkey=quote\n", "text=99999\n\n", "text=0\n", "text=0"] {
        gives(format!("rows=1\ncols=1\nstore=9\n{end}"), "script=4\n");
    }
}

#[test]
fn headers() {
    gives("", "script=1\n");
    gives("rows=2", "script=1\n");
    for line in
        ["rows=", "rows=01", "rows=+1", "rows= 1", "rows=1 ", "rows=1\r", "Rows=1", "cols=1", "rows=000001", "rows=100000", ""]
    {
        gives(format!("{line}\ncols=1\nstore=1\ntext=0\n\n"), "script=1\n");
    }
    gives("rows=1\ncols=00\nstore=1\ntext=0\n\n", "script=2\n");
    gives("rows=1\ncols=1\nstore=1\ntext=-0\n\n", "script=4\n");
}

#[test]
fn the_longest_input() {
    // 907 keys come to 8,193 bytes; without the last newline they are as long as an input may be.
    let input = NOTHING.to_string() + &"key=find\n".repeat(907);
    assert_eq!(input.len(), 8_193);
    let rung = "code=0\nsteps=0\nlines=0\nbell=1\nfirst=0\nlast=0\nrow=1\ncol=0\nline= \n";
    gives(input.trim_end(), OPENED.to_string() + &rung.repeat(907));
    gives(input, "script=0\n");
    gives("x".repeat(8_193), "script=0\n");
    gives("x".repeat(8_192), "script=1\n");
}

#[test]
fn inserts_and_refused_keys() {
    let refused = "code=5\nplace=0\n";
    for name in ["insert-0", "insert-9", "insert-127", "insert-255", "delete-left-line-end", "delete-right-line-begin"] {
        gives(format!("{NOTHING}key={name}\nkey=quote"), format!("{OPENED}{refused}{QUOTED}"));
    }
    for name in
        ["insert-256", "insert-00", "insert-007", "insert-", "insert-100000", "move-left", "move-left-line", "Quote", "quote\r"]
    {
        gives(format!("{NOTHING}key={name}\nkey=quote"), format!("{OPENED}script=6\n"));
    }
}

#[test]
fn newlines_of_the_text_count() {
    gives("rows=1\ncols=1\nstore=4\ntext=3\n\n\n\n\nnone\n", format!("{OPENED}script=9\n"));
}
