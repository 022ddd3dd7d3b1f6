//! `tone check`.

use crate::bench::{accepted, bad_books, error_text, examples, unusable, Folder, K};

#[test]
fn check_accepts() {
    let folder = Folder::new();
    let book = folder.write(
        "k.txt",
        "# book K\n2 1 0 0 1\n\n0 16384 # no comment here\n",
    );
    unusable(&run!("check", book), &["k.txt:4", "\"#\"", "word"]);
    assert_eq!(accepted(&run!("check", folder.book(&K))), "accepted\n");
    let example = examples().join("book/book.txt");
    assert_eq!(accepted(&run!("check", example)), "accepted\n");
}

#[test]
fn check_refuses_each_number() {
    let folder = Folder::new();
    for (index, words) in bad_books().iter().enumerate() {
        let refusal = tone::check(words).unwrap_err();
        assert_eq!(refusal.number() as usize, index + 1);
        let output = run!("check", folder.book(words));
        assert_eq!(error_text(&output), format!("{refusal}\n"));
        assert_eq!(output.stdout, b"");
        assert_eq!(output.status.code(), Some(1));
    }
    let output = run!("check", folder.write("empty.txt", ""));
    assert_eq!(
        error_text(&output),
        format!("{}\n", tone::check(&[]).unwrap_err())
    );
}

#[test]
fn books_that_cannot_be_read() {
    let folder = Folder::new();
    unusable(&run!("check", folder.path("none.txt")), &["none.txt"]);
    unusable(&run!("check", folder.path), &[]);
    unusable(
        &run!("check", folder.write("b.txt", "2 1\n0 99999999999\n")),
        &["b.txt:2", "99999999999"],
    );
    unusable(
        &run!("check", folder.write("b.txt", b"2 1 \xff")),
        &["b.txt"],
    );
}
