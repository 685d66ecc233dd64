//! RegexSet of the crate regex beside aaset: both are asked the same questions about the same rules, in turns, and the processor
//! time of each is told. bench/compare builds this program and hands it its files; it says what the words are.
//!
//! Everything random here comes from numbers that are the same in each run, so a run asks what the one before asked.

mod patterns;
mod processes;

use patterns::Pattern;
use processes::{processor, run};
use regex::bytes::{RegexSet, RegexSetBuilder};
use std::collections::{HashMap, HashSet};
use std::error::Error;
use std::fs;
use std::io::Write;

type Result<T> = std::result::Result<T, Box<dyn Error>>;

/// So many paths are asked again and again, and so many once.
const WARM: usize = 300;
/// So many bytes the long paths have: about as many as a command's line takes.
const LONG: usize = 65_000;
/// So many profiles stand in one file: aaset takes no file of more than 16,384 patterns.
const IN_A_FILE: usize = 5_000;
/// So many long paths there are.
const LONG_PATHS: usize = 20;
/// So often a path is asked until aaset has learnt all of it: a move is learnt where it is missed again.
const ROUNDS: usize = 4;

fn main() {
    if let Err(error) = answer_words() {
        eprintln!("bench/compare: {error}");
        std::process::exit(1);
    }
}

/// Does what the words of the command line say.
fn answer_words() -> Result<()> {
    let words: Vec<String> = std::env::args().skip(1).collect();
    let words: Vec<&str> = words.iter().map(String::as_str).collect();
    match words.as_slice() {
        ["questions", program, folder, turns, questions, rules @ ..] => {
            for file in rules {
                ask_rules(program, folder, turns.parse()?, questions.parse()?, file)?;
            }
            Ok(())
        }
        ["profiles", program, folder, turns, questions, counts @ ..] => {
            for count in counts {
                ask_profiles(program, folder, turns.parse()?, questions.parse()?, count.parse()?)?;
            }
            Ok(())
        }
        ["turns", turns, file] => take_turns(turns.parse()?, file),
        ["built", file] => {
            let rules = rules_of(&fs::read_to_string(file)?)?;
            let set = set_of(rules.iter().map(|rule| &rule.pattern), "$")?;
            println!("{}", set.matches(b"/").iter().count());
            Ok(())
        }
        _ => Err("these words aren't known: bench/compare has them".into()),
    }
}

/// A rule on files, as `show` of aaset tells it.
struct Rule {
    pattern: Pattern,
    denies: bool,
    access: String,
}

impl Rule {
    /// Whether the rule speaks of this letter: the letter w speaks of a too.
    fn covers(&self, letter: char) -> bool {
        self.access.contains(letter) || letter == 'a' && self.access.contains('w')
    }
}

/// The rules of a file of one profile that has one rule a line, each with its pattern in quotes.
fn rules_of(text: &str) -> Result<Vec<Rule>> {
    let mut rules = Vec::new();
    for line in text.lines().filter(|line| line.contains('"')) {
        let parts: Vec<&str> = line.splitn(3, '"').collect();
        if parts.len() < 3 {
            return Err(format!("a rule has no pattern in quotes: {line}").into());
        }
        let access = parts[2].split_whitespace().next().unwrap_or("").trim_end_matches(',').to_string();
        let denies = parts[0].split_whitespace().any(|word| word == "deny");
        rules.push(Rule { pattern: Pattern::of(parts[1])?, denies, access });
    }
    Ok(rules)
}

/// A RegexSet of patterns, in order, of bytes and not of characters, with room for any automaton. Each ends as is said.
fn set_of<'a>(patterns: impl Iterator<Item = &'a Pattern>, end: &str) -> Result<RegexSet> {
    let texts: Vec<String> = patterns.map(|pattern| format!("^{}{end}", pattern.regex())).collect();
    Ok(RegexSetBuilder::new(texts).unicode(false).size_limit(1 << 30).dfa_size_limit(1 << 30).build()?)
}

/// The answer to a question for one letter, from the rules that match.
fn answer(rules: &[Rule], set: &RegexSet, path: &[u8], letter: char) -> &'static str {
    let (mut denied, mut allowed) = (false, false);
    for at in set.matches(path).iter() {
        if rules[at].covers(letter) {
            if rules[at].denies {
                denied = true;
            } else {
                allowed = true;
            }
        }
    }
    if denied {
        "deny"
    } else if allowed {
        "allow"
    } else {
        "refuse"
    }
}

/// The same numbers in each run.
pub struct Numbers(u64);

impl Numbers {
    /// A number below this one.
    pub fn below(&mut self, limit: usize) -> usize {
        self.0 ^= self.0 << 13;
        self.0 ^= self.0 >> 7;
        self.0 ^= self.0 << 17;
        ((self.0 >> 11) % limit as u64) as usize
    }
}

/// Whether a command can name the path as it is.
fn can_be_asked(path: &[u8]) -> bool {
    path.iter().all(|byte| (b'!'..=b'~').contains(byte) && *byte != b'"')
}

/// So many different paths that patterns match, but that a byte near the end of one in four is another.
fn paths_of(rules: &[Rule], count: usize, numbers: &mut Numbers) -> Vec<Vec<u8>> {
    let mut known = HashSet::new();
    let mut paths = Vec::new();
    let mut tries = 0;
    while paths.len() < count {
        let mut path = rules[numbers.below(rules.len())].pattern.path(numbers, None);
        if numbers.below(4) == 0 {
            let third = path.len() / 3;
            let at = path.len() - 1 - numbers.below(third.max(1));
            if at > 0 {
                path[at] = b'a' + numbers.below(26) as u8;
            }
        }
        tries += 1;
        if tries > 20 {
            path.extend(paths.len().to_string().bytes());
        }
        if can_be_asked(&path) && known.insert(path.clone()) {
            paths.push(path);
            tries = 0;
        }
    }
    paths
}

/// Long paths that patterns with two stars match, where there are some, and else paths of many folders.
fn long_paths_of(rules: &[Rule], numbers: &mut Numbers) -> Vec<Vec<u8>> {
    let starred: Vec<&Rule> = rules.iter().filter(|rule| rule.pattern.has_stars()).collect();
    let mut paths = Vec::new();
    while paths.len() < LONG_PATHS {
        let path = if starred.is_empty() {
            b"/a".iter().cycle().take(LONG).copied().collect()
        } else {
            starred[numbers.below(starred.len())].pattern.path(numbers, Some(LONG))
        };
        if path.len() == LONG && can_be_asked(&path) {
            paths.push(path);
        }
    }
    paths
}

/// Writes a file of commands: first what adds the profiles, and then the questions.
fn write_commands<'a>(name: &str, added: &[String], before: &str, paths: impl Iterator<Item = &'a Vec<u8>>) -> Result<String> {
    let mut file = std::io::BufWriter::new(fs::File::create(name)?);
    for added in added {
        writeln!(file, "add {added}")?;
    }
    for path in paths {
        file.write_all(before.as_bytes())?;
        file.write_all(path)?;
        file.write_all(b"\n")?;
    }
    file.flush()?;
    Ok(name.to_string())
}

/// The words that start a program with some files.
fn words_of<'a>(program: &'a str, files: &'a [String]) -> Vec<&'a str> {
    std::iter::once(program).chain(files.iter().map(String::as_str)).collect()
}

/// What aaset replies to questions, without audit lines and without the replies to `add`.
fn replies(program: &str, added: &[String], commands: &str) -> Result<Vec<String>> {
    let (_, said) = run(&words_of(program, added), commands, true)?;
    let said = String::from_utf8(said)?;
    let mut lines = said.lines();
    for file in added {
        match lines.next() {
            Some("ok") => {}
            other => return Err(format!("aaset doesn't take {file}: {}", other.unwrap_or("no reply")).into()),
        }
    }
    Ok(lines.filter(|line| !line.starts_with("apparmor=")).map(str::to_string).collect())
}

/// The middle one of some figures.
fn median(figures: &[f64]) -> f64 {
    let mut sorted = figures.to_vec();
    sorted.sort_by(|one, other| one.total_cmp(other));
    let half = sorted.len() / 2;
    if sorted.len() % 2 == 1 {
        sorted[half]
    } else {
        (sorted[half - 1] + sorted[half]) / 2.0
    }
}

/// Has a number count as used, so that a compiler doesn't leave out what it is found by.
fn used(found: usize) {
    // It is read from where it stands.
    unsafe { std::ptr::read_volatile(&found) };
}

/// Seconds of the processor that asking these paths takes, each once.
fn ask_set<'a>(set: &RegexSet, paths: impl Iterator<Item = &'a Vec<u8>>) -> f64 {
    let before = processor();
    let mut found = 0;
    for path in paths {
        found += set.matches(path).iter().count();
    }
    used(found);
    processor() - before
}

/// A kind of questions: the paths that are asked, and where aaset's commands are that ask each once, each so often that all is learnt, and beside
/// these as many questions as are measured.
struct Asked {
    paths: Vec<Vec<u8>>,
    times: usize,
    first: String,
    learnt: String,
    again: String,
}

impl Asked {
    /// The paths, again and again, as many as are measured.
    fn each(&self) -> impl Iterator<Item = &Vec<u8>> {
        self.paths.iter().cycle().take(self.times)
    }
}

/// Writes the commands of a kind of questions, of which so many are measured once all is learnt; none, where each path is asked once alone.
fn asked_as(folder: &str, name: &str, added: &[String], paths: Vec<Vec<u8>>, times: usize) -> Result<Asked> {
    let ask = |part: &str, many: usize| write_commands(&format!("{folder}/{name}.{part}"), added, "ask file p r owner ", paths.iter().cycle().take(many));
    let (first, learnt, again) = (ask("first", paths.len())?, ask("learnt", ROUNDS * paths.len())?, ask("again", ROUNDS * paths.len() + times)?);
    Ok(Asked { paths, times, first, learnt, again })
}

/// The line of the table of questions for the rules of one file.
fn ask_rules(program: &str, folder: &str, turns: usize, questions: usize, file: &str) -> Result<()> {
    let text = fs::read_to_string(file)?;
    let added = [file.to_string()];
    let rules = rules_of(&text)?;
    let title = file.rsplit('/').next().unwrap_or(file).replace('_', " ");
    let mut numbers = Numbers(88_172_645_463_325_252);
    let mut all = paths_of(&rules, WARM + questions, &mut numbers);
    let different = all.split_off(WARM);
    let long = long_paths_of(&rules, &mut numbers);

    let kinds = [
        asked_as(folder, "warm", &added, all, questions)?,
        asked_as(folder, "different", &added, different, 0)?,
        asked_as(folder, "long", &added, long, LONG_PATHS.max(questions / 200))?,
    ];
    let nothing = write_commands(&format!("{folder}/nothing"), &added, "", [].iter())?;

    // Both must answer alike, for each letter and each path.
    let set = set_of(rules.iter().map(|rule| &rule.pattern), "$")?;
    let mut matched = 0;
    let mut matches = 0;
    for kind in &kinds {
        for letter in ['r', 'w', 'a', 'l', 'k', 'm'] {
            let commands = write_commands(&format!("{folder}/checked"), &added, &format!("ask file p {letter} owner "), kind.paths.iter())?;
            let told = replies(program, &added, &commands)?;
            if told.len() != kind.paths.len() {
                return Err(format!("{title}: aaset gives {} replies to {} questions", told.len(), kind.paths.len()).into());
            }
            for (path, told) in kind.paths.iter().zip(&told) {
                let wanted = answer(&rules, &set, path, letter);
                if told != wanted {
                    let path = String::from_utf8_lossy(&path[..path.len().min(200)]);
                    return Err(format!("{title}: asked for {letter} of {path} aaset says {told}, and by RegexSet it is {wanted}").into());
                }
            }
        }
        for path in &kind.paths {
            let found = set.matches(path).iter().count();
            matched += usize::from(found > 0);
            matches += found;
        }
    }
    let asked: usize = kinds.iter().map(|kind| kind.paths.len()).sum();
    eprintln!("{title}: both answer alike, to six letters of each of {asked} paths, of which {matched} match, {matches} times.");

    // Each kind in each turn: what is asked for the first time, of aaset and of RegexSet, and what is learnt.
    let mut figures = vec![[Vec::new(), Vec::new(), Vec::new(), Vec::new()]; kinds.len()];
    for _ in 0..turns {
        let took = |commands: &str| -> Result<f64> { Ok(run(&[program, file], commands, false)?.0) };
        let base = took(&nothing)?;
        for (kind, figures) in kinds.iter().zip(&mut figures) {
            let set = set_of(rules.iter().map(|rule| &rule.pattern), "$")?;
            figures[0].push((took(&kind.first)? - base).max(0.0) / kind.paths.len() as f64);
            figures[1].push(ask_set(&set, kind.paths.iter()) / kind.paths.len() as f64);
            if kind.times > 0 {
                let learnt = took(&kind.learnt)?;
                figures[2].push((took(&kind.again)? - learnt).max(0.0) / kind.times as f64);
                figures[3].push(ask_set(&set, kind.each()) / kind.times as f64);
            }
        }
    }
    let kind = title.split(',').next().unwrap_or(&title);
    print!("| {kind} | {} |", whole(rules.len()));
    let [warm, different, long] = figures.as_slice() else { unreachable!() };
    for figure in [&warm[2..], &warm[..2], &different[..2], &long[2..], &long[..2]].into_iter().flatten() {
        print!(" {} |", digits(median(figure) * 1e6));
    }
    println!();
    Ok(())
}

/// The line of the table of profiles, for so many small profiles in force.
fn ask_profiles(program: &str, folder: &str, turns: usize, questions: usize, count: usize) -> Result<()> {
    let mut texts = vec![String::new(); count.div_ceil(IN_A_FILE)];
    let mut attachments = Vec::new();
    let mut rules = HashMap::new();
    let mut starts = Vec::new();
    let mut files = Vec::new();
    for at in 0..count {
        let name = format!("p{at}");
        let attachment = if at % 4 == 3 { format!("/usr/lib/program{at}/*") } else { format!("/usr/bin/program{at}") };
        let rule = format!("/srv/folder{at}/**");
        texts[at / IN_A_FILE] += &format!("profile {name} {attachment} {{\n  {rule} r,\n}}\n");
        let (attachment, rule) = (Pattern::of(&attachment)?, Pattern::of(&rule)?);
        rules.insert(name, set_of([&rule].into_iter(), "$")?);
        attachments.push(attachment);
    }
    let mut added = Vec::new();
    for (at, text) in texts.iter().enumerate() {
        added.push(format!("{folder}/profiles{at}"));
        fs::write(&added[at], text)?;
    }
    let attached = set_of(attachments.iter(), "$")?;
    let mut numbers = Numbers(88_172_645_463_325_252);
    for _ in 0..WARM {
        let mut path = attachments[numbers.below(count)].path(&mut numbers, None);
        // One in four is that of no profile.
        if numbers.below(4) == 0 {
            path.extend(b"-old/x");
        }
        starts.push(path);
        let at = numbers.below(count);
        let folder = if numbers.below(4) == 0 { count + at } else { at };
        files.push((format!("p{at}"), format!("/srv/folder{folder}/some/name").into_bytes()));
    }
    let asked: Vec<Vec<u8>> = files.iter().map(|(name, path)| [format!("{name} r owner ").as_bytes(), path].concat()).collect();
    let nothing = write_commands(&format!("{folder}/nothing"), &added, "", [].iter())?;
    let exec = write_commands(&format!("{folder}/exec"), &added, "ask exec unconfined owner ", starts.iter().cycle().take(questions))?;
    let of_files = write_commands(&format!("{folder}/files"), &added, "ask file ", asked.iter().cycle().take(questions))?;

    let told = replies(program, &added, &exec)?;
    for (path, told) in starts.iter().zip(&told) {
        let wanted = match attached.matches(path).iter().next() {
            Some(at) => format!("allow to \"p{at}\""),
            None => "allow unconfined".to_string(),
        };
        if told.trim_end_matches(" scrub") != wanted {
            return Err(format!(
                "{count} profiles: of the start of {} aaset says {told}, and by RegexSet it is {wanted}",
                String::from_utf8_lossy(path)
            )
            .into());
        }
    }
    let told = replies(program, &added, &of_files)?;
    for ((name, path), told) in files.iter().zip(&told) {
        let wanted = if rules[name].is_match(path) { "allow" } else { "refuse" };
        if told != wanted {
            return Err(format!("{count} profiles: of {} aaset says {told}, and by RegexSet it is {wanted}", String::from_utf8_lossy(path)).into());
        }
    }
    eprintln!("{count} profiles: both answer alike, to {WARM} questions of each kind.");

    let mut figures = [Vec::new(), Vec::new(), Vec::new(), Vec::new()];
    ask_set(&attached, starts.iter());
    for _ in 0..turns {
        let (base, _) = run(&words_of(program, &added), &nothing, false)?;
        let (took, _) = run(&words_of(program, &added), &exec, false)?;
        figures[0].push((took - base).max(0.0));
        figures[1].push(ask_set(&attached, starts.iter().cycle().take(questions)));
        let (took, _) = run(&words_of(program, &added), &of_files, false)?;
        figures[2].push((took - base).max(0.0));
        let before = processor();
        let mut found = 0;
        for (name, path) in files.iter().cycle().take(questions) {
            found += rules[name].matches(path).iter().count();
        }
        used(found);
        figures[3].push(processor() - before);
    }
    print!("| {} |", whole(count));
    for figure in &figures {
        print!(" {} |", digits(median(figure) / questions as f64 * 1e6));
    }
    println!();
    Ok(())
}

/// Runs commands in turns, and prints the middle processor time of each in microseconds, and its exit status. Each line of the file is
/// a command: its standard input, and then its words, with tabs between.
fn take_turns(turns: usize, file: &str) -> Result<()> {
    let text = fs::read_to_string(file)?;
    let commands: Vec<Vec<&str>> = text.lines().map(|line| line.split('\t').collect()).collect();
    let mut figures = vec![Vec::new(); commands.len()];
    let mut statuses = vec![0; commands.len()];
    for _ in 0..turns {
        for (at, words) in commands.iter().enumerate() {
            let (took, status) = processes::run_whatever(&words[1..], words[0])?;
            figures[at].push(took);
            statuses[at] = status;
        }
    }
    for (figure, status) in figures.iter().zip(&statuses) {
        println!("{:.0} {status}", median(figure) * 1e6);
    }
    Ok(())
}

/// A figure with two digits or more that count.
fn digits(figure: f64) -> String {
    if figure < 10.0 {
        format!("{figure:.2}")
    } else if figure < 100.0 {
        format!("{figure:.1}")
    } else {
        whole(figure.round() as usize)
    }
}

/// A number with a comma between thousands.
fn whole(number: usize) -> String {
    let text = number.to_string();
    let mut said = String::new();
    for (at, digit) in text.chars().enumerate() {
        if at > 0 && (text.len() - at) % 3 == 0 {
            said.push(',');
        }
        said.push(digit);
    }
    said
}
