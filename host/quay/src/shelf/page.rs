//! A shelf as one page that needs no other file: readable without its script, sortable with it.

use std::fmt::Write;

use quayladle::Refusal;

use super::{Filed, Group, Shelf};
use crate::showing::{counted, grouped, plain, plain_verdict};

const STYLE: &str = include_str!("page.css");
const SCRIPT: &str = include_str!("page.js");

pub fn page(shelf: &Shelf) -> String {
    let title = escaped(&format!("Shelf {}", shelf.folder));
    let body =
        [whole(shelf), refused(shelf), same(shelf), files(shelf), unreadable(shelf)].concat();
    format!(
        "<!DOCTYPE html>\n<html lang=\"en\">\n<head>\n<meta charset=\"utf-8\">\n\
        <meta name=\"viewport\" content=\"width=device-width\">\n<title>{title}</title>\n\
        <style>\n{STYLE}</style>\n</head>\n<body>\n<h1>{title}</h1>\n{body}{ABOUT}\
        <script>\n{SCRIPT}</script>\n</body>\n</html>\n"
    )
}

const ABOUT: &str = "<footer>\n\
    <p>Every reply on this page was given by a library that is proved to answer so for every file: \
    a file is called whole exactly if the rules of IDF 3.0 and of the house produce it, and two files \
    are called the same exactly if they say the same list of records. A reply is the number of the \
    answer (0: done), the line and a count; a reply on two files ends with the number of the file that \
    was refused (0: neither). Nothing was changed or deleted.</p>\n\
    <p>This page holds no date: the same shelf gives the same page.</p>\n</footer>\n";

/// How many files are whole.
fn whole(shelf: &Shelf) -> String {
    let (files, whole) = (shelf.files.len(), shelf.whole());
    let totals = [
        (grouped(files as u64), "IDF files read"),
        (grouped(whole as u64), "whole"),
        (grouped((files - whole) as u64), "refused"),
        (grouped(shelf.unreadable.len() as u64), "not readable"),
        (grouped(shelf.passed_over as u64), "passed over by name"),
        (grouped(shelf.size()), "bytes in all"),
        (grouped(shelf.freed()), "bytes that copies take"),
    ];
    let mut out = String::from("<h2>How many files are whole?</h2>\n<dl>\n");
    for (count, words) in totals {
        let _ = writeln!(out, "<div><dt>{words}</dt><dd>{count}</dd></div>");
    }
    out + "</dl>\n"
}

/// The refused files, each with its line and the rule in words.
fn refused(shelf: &Shelf) -> String {
    let rows: Vec<Cells> =
        shelf.refused().map(|(file, refusal)| refused_row(file, refusal)).collect();
    let heads = ["File", "*Line", "*No.", "Rule", "What to look for"];
    section("Which files are refused, where and why?", "No file is refused.", &heads, &rows)
}

fn refused_row(file: &Filed, refusal: Refusal) -> Cells {
    let line = match refusal.line {
        0 => String::new(),
        line => grouped(line),
    };
    let reason = refusal.reason;
    let words = [reason.title(), reason.help()].map(String::from);
    [vec![escaped(&file.name), line, reason.number().to_string()], words.into()].concat()
}

/// The groups, each with the evidence for every file in it.
fn same(shelf: &Shelf) -> String {
    let mut out = String::from("<h2>Which files are the same, and how do we know?</h2>\n");
    if shelf.groups.is_empty() {
        return out + "<p>No two files are the same.</p>\n";
    }
    out.push_str(
        "<p>Files of a group say the same list of records, so they have one canonical text, and the \
        proved comparison of the first with each other one answered <code>0&nbsp;0&nbsp;1&nbsp;0</code>: neither \
        refused, the same.</p>\n",
    );
    for (place, group) in shelf.groups.iter().enumerate() {
        out.push_str(&group_part(shelf, place + 1, group));
    }
    out
}

fn group_part(shelf: &Shelf, number: usize, group: &Group) -> String {
    let first = &shelf.files[group.first];
    let mut rows = vec![member_row(first, "the first", String::new())];
    for member in &group.others {
        let how = if shelf.is_copy(group, member) { "exact copy" } else { "other bytes" };
        rows.push(member_row(&shelf.files[member.file], how, plain_verdict(member.verdict)));
    }
    let heads = ["File", "*Bytes", "Bytes compared", "Reply", "SHA-256 of the file"];
    let freed = counted(shelf.freed_by(group), "byte");
    format!(
        "<h3>Group {number}: {}</h3>\n<p>Canonical text: SHA-256 <code>{}</code>, {}. \
        Keeping the first alone would free {freed}.</p>\n{}",
        escaped(&first.name),
        hash(&first.canonical),
        counted(first.reply.count, "record"),
        table(&heads, &rows),
    )
}

fn member_row(file: &Filed, how: &str, verdict: String) -> Cells {
    vec![
        escaped(&file.name),
        grouped(file.size),
        how.to_string(),
        verdict,
        format!("<code>{}</code>", hash(&file.sha256)),
    ]
}

/// Every file that was read, with its reply.
fn files(shelf: &Shelf) -> String {
    let rows: Vec<Cells> = shelf.files.iter().map(file_row).collect();
    let heads =
        ["File", "*Bytes", "State", "Reply", "SHA-256 of the file, and of its canonical text"];
    section("Which file is which?", "There is no IDF file here.", &heads, &rows)
}

fn file_row(file: &Filed) -> Cells {
    let state = if file.reply.number == 0 { "whole" } else { "refused" };
    vec![
        escaped(&file.name),
        grouped(file.size),
        state.to_string(),
        plain(file.reply),
        format!("<code>{}</code><br><code>{}</code>", hash(&file.sha256), hash(&file.canonical)),
    ]
}

/// What could not be read; nothing where all could.
fn unreadable(shelf: &Shelf) -> String {
    if shelf.unreadable.is_empty() {
        return String::new();
    }
    let rows: Vec<Cells> =
        shelf.unreadable.iter().map(|it| vec![escaped(&it.name), escaped(&it.why)]).collect();
    section("What could not be read?", "", &["Name", "Why"], &rows)
}

fn section(title: &str, none: &str, heads: &[&str], rows: &[Cells]) -> String {
    match rows.is_empty() {
        true => format!("<h2>{title}</h2>\n<p>{none}</p>\n"),
        false => format!("<h2>{title}</h2>\n{}", table(heads, rows)),
    }
}

/// The cells of a table's row, each as HTML.
type Cells = Vec<String>;

/// A table; a head that begins with a star stands over numbers.
fn table(heads: &[&str], rows: &[Cells]) -> String {
    let is_number: Vec<bool> = heads.iter().map(|head| head.starts_with('*')).collect();
    let class = |column: usize| if is_number[column] { " class=\"number\"" } else { "" };
    let mut out = String::from("<table>\n<thead><tr>");
    for (column, head) in heads.iter().enumerate() {
        let words = head.trim_start_matches('*');
        let _ = write!(out, "<th scope=\"col\"{}>{words}</th>", class(column));
    }
    out.push_str("</tr></thead>\n<tbody>\n");
    for cells in rows {
        out.push_str("<tr>");
        for (column, cell) in cells.iter().enumerate() {
            let _ = write!(out, "<td{}>{cell}</td>", class(column));
        }
        out.push_str("</tr>\n");
    }
    out + "</tbody>\n</table>\n"
}

fn hash(sum: &Option<String>) -> &str {
    sum.as_deref().unwrap_or("none")
}

/// Text as it stands in HTML.
fn escaped(text: &str) -> String {
    let mut out = String::new();
    for letter in text.chars() {
        match letter {
            '&' => out.push_str("&amp;"),
            '<' => out.push_str("&lt;"),
            '>' => out.push_str("&gt;"),
            '"' => out.push_str("&quot;"),
            _ => out.push(letter),
        }
    }
    out
}
