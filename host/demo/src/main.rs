//! What the library says of the story's committee. Rounds given as arguments are looked up too.

#![forbid(unsafe_code)]

mod story;

use std::fmt::Write as _;
use story::{House, TODAY};
use tundrimela::raw;
use tundrimela::{Committee, Refusal};

/// A round far enough away to show how every turn moves.
const FAR: u32 = 100;

fn main() {
    let rounds: Vec<String> = std::env::args().skip(1).collect();
    match page(&rounds) {
        Ok(page) => print!("{}", page),
        Err(refusal) => {
            eprintln!("the story's committee is refused: {}", refusal);
            std::process::exit(1)
        }
    }
}

fn page(rounds: &[String]) -> Result<String, Refusal> {
    let today = committee(&TODAY)?;
    let mut page = String::from("The shared cycle calendar: nine clinics and two laboratories\n\n");
    page += &turns(&today)?;
    page += "\n";
    page += &changes()?;
    page += "\n";
    page += &refusals(&today);
    page += &answers(&today, rounds);
    Ok(page)
}

fn committee(houses: &[House]) -> Result<Committee, Refusal> {
    Committee::new(&story::members(houses))
}

/// Who has which stake and leads which rounds.
fn turns(today: &Committee) -> Result<String, Refusal> {
    let mut text = format!(
        "{:>5}  {:<12}{:<12}{:>5}  leads rounds\n",
        "place", "member", "", "stake"
    );
    let mut led = vec![Vec::new(); today.size()];
    for round in 1..=4 * today.size() as u32 {
        led[today.leader(round)?].push(round.to_string());
    }
    for (place, house) in TODAY.iter().enumerate() {
        let stake = today.stake(&story::key(house.name));
        let line = format!("{:>5}  {:<12}{:<12}", place, house.name, house.kind);
        let _ = writeln!(text, "{}{:>5}  {}, ..", line, stake, led[place].join(", "));
    }
    Ok(text)
}

/// What a joining or a leaving clinic changes.
fn changes() -> Result<String, Refusal> {
    let mut text = format!(
        "{:<29}{:>8}{:>6}{:>7}{:>9}  round {} led by\n",
        "", "members", "stake", "quorum", "validity", FAR
    );
    let joined = story::joined(story::crowberry());
    let cases = [
        ("today", TODAY.to_vec()),
        ("Crowberry joins with stake 4", joined),
        ("Heather leaves with stake 1", story::left("Heather")),
        ("Rowan leaves with stake 5", story::left("Rowan")),
    ];
    for (what, houses) in cases {
        let committee = committee(&houses)?;
        let _ = writeln!(
            text,
            "{:<29}{:>8}{:>6}{:>7}{:>9}  {}",
            what,
            committee.size(),
            story::total(&houses),
            committee.quorum(),
            committee.validity(),
            houses[committee.leader(FAR)?].name,
        );
    }
    Ok(text)
}

/// Each way in which a member list or a setup is refused.
fn refusals(today: &Committee) -> String {
    let mut text = line("refused", "the domain", "answer");
    for damaged in story::damaged() {
        let result = Committee::new(&damaged.members).map(|x| x.size() as u64);
        text += &line(damaged.what, damaged.domain, &told(result));
    }
    let rows = today.as_bytes();
    let cut = raw::committee(&rows[..rows.len() - 1]).result();
    text += &line("a row cut by a byte", "69 bytes a row", &told(cut));
    let deep = [&(1_u64 << 32).to_le_bytes(), rows].concat();
    let deep = raw::setup(&deep).result();
    text += &line("depth 4,294,967,296", "at most 4,294,967,295", &told(deep));
    text
}

fn line(what: &str, domain: &str, answer: &str) -> String {
    format!("{:<29}{:<26}{}\n", what, domain, answer)
}

fn told(result: Result<u64, Refusal>) -> String {
    match result {
        Ok(_) => "accepted".into(),
        Err(refusal) => format!("{} {:?}", refusal.number(), refusal),
    }
}

/// The leaders of the rounds that were asked for.
fn answers(today: &Committee, rounds: &[String]) -> String {
    let mut text = String::from(if rounds.is_empty() { "" } else { "\n" });
    for word in rounds {
        let answer = match word.parse() {
            Ok(round) => leader(today, round),
            Err(_) => "not a number".into(),
        };
        let _ = writeln!(text, "round {}: {}", word, answer);
    }
    text
}

fn leader(today: &Committee, round: u64) -> String {
    let result = raw::leader(today.as_bytes(), round).result();
    match result {
        Ok(place) => TODAY[place as usize].name.into(),
        Err(refusal) => format!("{}, {}", told(result), refusal),
    }
}

#[cfg(test)]
mod tests {
    use super::*;

    #[test]
    fn the_page_fits_a_screen() {
        let page = page(&[]).unwrap();
        assert!(page.lines().count() <= 34, "{}", page);
        assert!(page.lines().all(|line| line.len() <= 80), "{}", page);
    }

    #[test]
    fn nine_clinics_and_two_laboratories_take_turns() {
        let kinds = |kind| TODAY.iter().filter(|x| x.kind == kind).count();
        assert_eq!((kinds("clinic"), kinds("laboratory")), (9, 2));
        let turns = turns(&committee(&TODAY).unwrap()).unwrap();
        let rowan = "    7  Rowan       laboratory      5  7, 18, 29, 40, ..";
        assert_eq!(turns.lines().nth(8), Some(rowan));
    }

    #[test]
    fn a_change_moves_thresholds_and_turns() {
        let text = changes().unwrap();
        let columns: Vec<Vec<_>> = text
            .lines()
            .skip(1)
            .map(|line| line[29..].split_whitespace().collect())
            .collect();
        assert_eq!(columns[0], ["11", "30", "21", "10", "Bilberry"]);
        assert_eq!(columns[1], ["12", "34", "23", "12", "Fireweed"]);
        assert_eq!(columns[2], ["10", "29", "20", "10", "Angelica"]);
        assert_eq!(columns[3], ["10", "25", "17", "9", "Angelica"]);
    }

    #[test]
    fn every_damaged_list_is_refused() {
        let text = refusals(&committee(&TODAY).unwrap());
        let lines: Vec<_> = text.lines().skip(1).collect();
        assert_eq!(lines.len(), 9);
        assert!(lines.iter().all(|x| x.ends_with(" 10 BadCommittee")));
    }

    #[test]
    fn rounds_are_looked_up() {
        let today = committee(&TODAY).unwrap();
        let rounds = ["7", "0", "4294967296", "x"].map(String::from);
        let text = answers(&today, &rounds);
        let lines: Vec<_> = text.lines().skip(1).collect();
        assert_eq!(lines[0], "round 7: Rowan");
        assert!(lines[1].starts_with("round 0: 11 BadShape, "));
        assert!(lines[2].starts_with("round 4294967296: 11 BadShape, "));
        assert_eq!(lines[3], "round x: not a number");
    }
}
