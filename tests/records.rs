// Turns the tables in tests/tables into the records that the program `cases` runs, and the lines that it must print.
// Usage: records RECORDS STDOUT TABLE..; tests/tables/jobs.txt says how a table is written. tests/records runs this.
use std::collections::HashMap;

type Fault = String;

// The bytes of a slice that takes every plan, of the longest slice or file, and of the longest input: two files.
const PLAN: u64 = 96;
const SLICE: u64 = 4_200;
const INPUT: u64 = 2 + 2 * SLICE;

// What a name stands for: changes to a job or to its file, one after the other.
type Names = HashMap<String, Vec<String>>;

#[derive(Clone, Default)]
struct Action {
    length: u64,
    sets: [u64; 3], // needs, adds, deletes
    uses: [Vec<u64>; 2], // of pools, of stores
}

#[derive(Default)]
struct Job {
    facts: u64,
    deadline: u64,
    sets: [u64; 2], // start, goal
    reserve: Option<u64>, // the last byte of the head, where it has 20
    amounts: [Vec<u64>; 2], // pools, stores
    actions: Vec<Action>,
    handovers: Option<Vec<u64>>, // the bytes of the fifth body, where they are named
    shortest: Option<Vec<u64>>, // the bytes of the sixth body, where the file has six entries
    bodies: Option<Vec<u64>>, // the lengths of bodies of zeros, which take the place of all that
    damage: Vec<String>, // changes to the bytes
}

// One record: the letter of its call, a title, a job file, an input, the length of a slice and a set.
#[derive(Default)]
struct Record {
    call: u8,
    title: String,
    file: Vec<u8>,
    input: Vec<u8>,
    room: u64,
    set: u64,
}

fn fault<T>(what: &str, text: &str) -> Result<T, Fault> {
    Err(format!("{what}: '{}'", text.trim()))
}

// The words of a text, where a set in braces is one word, and commas between words are left out.
fn words(text: &str) -> Vec<String> {
    let mut words = vec![String::new()];
    let mut inside = false;
    for c in text.chars() {
        inside = (inside || c == '{') && c != '}';
        if !inside && (c == ',' || c.is_whitespace()) {
            words.push(String::new());
        } else {
            words.last_mut().unwrap().push(c);
        }
    }
    words.retain(|word| !word.is_empty());
    words
}

// A sum of products of numbers and the letter n, as 900000+256*n. Numbers are decimal, or hexadecimal after 0x.
fn number(text: &str, n: u64) -> Result<i128, Fault> {
    let mut sum = 0;
    for (k, term) in text.replace('-', "+-").split('+').enumerate() {
        if k == 0 && term.is_empty() {
            continue;
        }
        let (sign, term) = if let Some(rest) = term.strip_prefix('-') { (-1, rest) } else { (1, term) };
        let mut product = sign;
        for factor in term.split('*') {
            let digits = factor.trim().replace('_', "");
            product *= match digits.strip_prefix("0x") {
                Some(hex) => i128::from_str_radix(hex, 16).or(fault("not a number", factor))?,
                None if digits == "n" => n as i128,
                None => digits.parse::<u32>().or(fault("not a number", factor))? as i128,
            };
        }
        sum += product;
    }
    Ok(sum)
}

fn count(text: &str, n: u64) -> Result<u64, Fault> {
    u64::try_from(number(text, n)?).or(fault("not a count", text))
}

// Numbers, of which 1 to 64 stands for all from 1 on.
fn counts(text: &str) -> Result<Vec<u64>, Fault> {
    let mut counts = vec![];
    let words = words(text);
    let mut at = 0;
    while at < words.len() {
        let last = if words.get(at + 1).is_some_and(|word| word == "to") { at + 2 } else { at };
        let to = words.get(last).ok_or(format!("a number is missing: '{text}'"))?;
        counts.extend(count(&words[at], 0)?..=count(to, 0)?);
        at = last + 1;
    }
    Ok(counts)
}

// A set: facts and ranges of facts in braces, or a number with a bit for each fact. A fact that is reckoned with n, and
// is none of 0 to 63, is left out.
fn set(text: &str, n: u64) -> Result<u64, Fault> {
    let Some(inner) = text.trim().strip_prefix('{').and_then(|rest| rest.strip_suffix('}')) else {
        return count(text, n);
    };
    let mut set = 0;
    for part in inner.split(',').filter(|part| !part.trim().is_empty()) {
        let (from, to) = part.split_once(" to ").unwrap_or((part, part));
        for fact in number(from.trim(), n)?..=number(to.trim(), n)? {
            if (0..64).contains(&fact) {
                set |= 1 << fact;
            } else if !part.contains('n') {
                return fault("no such fact", part);
            }
        }
    }
    Ok(set)
}

// What is said of an action: pairs of a word and a value, and for the uses as many values as there are.
fn change_action(action: &mut Action, text: &str, n: u64) -> Result<(), Fault> {
    let words = words(text);
    let mut at = 0;
    while at + 1 < words.len() {
        let value = &words[at + 1];
        match words[at].as_str() {
            "length" => action.length = count(value, n)?,
            "needs" => action.sets[0] = set(value, n)?,
            "adds" => action.sets[1] = set(value, n)?,
            "deletes" => action.sets[2] = set(value, n)?,
            which @ ("pools" | "stores") => {
                let values = words[at + 1..].iter().take_while(|word| !word.starts_with(char::is_alphabetic));
                let uses: Result<Vec<u64>, Fault> = values.map(|word| count(word, n)).collect();
                at += uses.as_ref().map_or(0, |uses| uses.len().saturating_sub(1));
                action.uses[(which == "stores") as usize] = uses?;
            }
            _ => return fault("nothing that an action has", &words[at]),
        }
        at += 2;
    }
    if at == words.len() { Ok(()) } else { fault("a value is missing", text) }
}

// One more pool or store, or another availability of one.
fn change_amounts(amounts: &mut Vec<u64>, text: &str) -> Result<(), Fault> {
    if let Some((place, amount)) = text.split_once('=') {
        let place = count(place.trim(), 0)? as usize;
        *amounts.get_mut(place).ok_or(format!("no number {place}"))? = count(amount.trim(), 0)?;
    } else {
        amounts.push(count(text, 0)?);
    }
    Ok(())
}

// One more action, more actions for a range of n, or a change to one action or to all.
fn change_actions(job: &mut Job, word: &str, text: &str) -> Result<(), Fault> {
    let (which, what) = text.split_once(':').unwrap_or(("", text));
    if word == "every" {
        let mut actions = job.actions.iter_mut().enumerate();
        return actions.try_for_each(|(n, action)| change_action(action, what, n as u64));
    }
    if word == "actions" {
        let (from, to) = which.split_once(" to ").ok_or(format!("no range of actions: '{which}'"))?;
        for n in count(from.trim(), 0)?..=count(to.trim(), 0)? {
            job.actions.push(Action::default());
            change_action(job.actions.last_mut().unwrap(), what, n)?;
        }
        return Ok(());
    }
    if which.is_empty() {
        job.actions.push(Action::default());
        return change_action(job.actions.last_mut().unwrap(), what, 0);
    }
    let place = count(which.trim(), 0)? as usize;
    change_action(job.actions.get_mut(place).ok_or(format!("no action {place}"))?, what, 0)
}

// One change, or all those that a name stands for.
fn change(job: &mut Job, text: &str, names: &Names) -> Result<(), Fault> {
    if let Some(changes) = names.get(text) {
        return changes.iter().try_for_each(|each| change(job, each, names));
    }
    let (word, rest) = text.split_once(' ').unwrap_or((text, ""));
    match word {
        "facts" => job.facts = count(rest, 0)?,
        "deadline" => job.deadline = count(rest, 0)?,
        "start" => job.sets[0] = set(rest, 0)?,
        "goal" => job.sets[1] = set(rest, 0)?,
        "reserve" => job.reserve = Some(count(rest, 0)?),
        "pool" => change_amounts(&mut job.amounts[0], rest)?,
        "store" => change_amounts(&mut job.amounts[1], rest)?,
        "action" | "actions" | "every" => change_actions(job, word, rest)?,
        "handovers" => job.handovers = Some(counts(rest)?),
        "shortest" => job.shortest = Some(counts(rest)?),
        "bodies" => job.bodies = Some(counts(rest)?),
        "byte" | "cut" | "add" => job.damage.push(text.to_string()),
        _ => return fault("neither a name nor a change", text),
    }
    Ok(())
}

fn bytes_of(x: u64, width: usize) -> Vec<u8> {
    x.to_le_bytes()[..width].to_vec()
}

// The first so many amounts, 0 where there are fewer, of 4 bytes each.
fn amount_bytes(amounts: &[u64], count: usize) -> Vec<u8> {
    (0..count).flat_map(|k| bytes_of(amounts.get(k).copied().unwrap_or(0), 4)).collect()
}

// The bodies of a job's file: four, five with the handovers, or six with these, 0 where none are named, and the
// shortest lengths.
fn bodies(job: &Job) -> Vec<Vec<u8>> {
    if let Some(lengths) = &job.bodies {
        return lengths.iter().map(|length| vec![0; *length as usize]).collect();
    }
    let counts = [job.amounts[0].len(), job.amounts[1].len()];
    let mut actions = vec![];
    for action in &job.actions {
        actions.extend(bytes_of(action.length, 1));
        actions.extend(action.sets.iter().flat_map(|set| bytes_of(*set, 8)));
        actions.extend([0, 1].iter().flat_map(|k| amount_bytes(&action.uses[*k], counts[*k])));
    }
    let sets = job.sets.iter().flat_map(|set| bytes_of(*set, 8));
    let reserve = job.reserve.map(|percent| percent as u8);
    let head = bytes_of(job.facts, 1).into_iter().chain(bytes_of(job.deadline, 2)).chain(sets).chain(reserve).collect();
    let amounts = [0, 1].map(|k| amount_bytes(&job.amounts[k], counts[k]));
    let none = job.shortest.as_ref().map(|_| vec![0; counts[0]]);
    let minutes = [job.handovers.clone().or(none), job.shortest.clone()];
    let behind = minutes.into_iter().flatten().map(|minutes| minutes.iter().map(|byte| *byte as u8).collect());
    [head].into_iter().chain(amounts).chain([actions]).chain(behind).collect()
}

// A change to the bytes: byte K = X, byte K + X, byte K - X, cut to N, add N bytes.
fn damage(file: &mut Vec<u8>, text: &str) -> Result<(), Fault> {
    let words = words(text);
    let word = |k: usize| words.get(k).map_or("", String::as_str);
    match (word(0), word(2)) {
        ("cut", _) => file.truncate(count(word(2), 0)? as usize),
        ("add", _) => file.resize(file.len() + count(word(1), 0)? as usize, 0),
        (_, how) => {
            let place = count(word(1), 0)? as usize;
            let byte = file.get_mut(place).ok_or(format!("no byte {place}"))?;
            let x = count(word(3), 0)? as u8;
            *byte = match how {
                "=" => x,
                "+" => byte.wrapping_add(x),
                "-" => byte.wrapping_sub(x),
                _ => return fault("not a change to a byte", text),
            };
        }
    }
    Ok(())
}

// The file of a job: names and changes between semicolons, from a job of zeros on.
fn job_file(text: &str, names: &Names) -> Result<Vec<u8>, Fault> {
    let mut job = Job::default();
    for part in text.split(';') {
        change(&mut job, part.trim(), names)?;
    }
    let bodies = bodies(&job);
    let mut file = vec![];
    let mut offset = 4 * bodies.len() as u64;
    for body in &bodies {
        file.extend(bytes_of(offset, 2));
        file.extend(bytes_of(body.len() as u64, 2));
        offset += body.len() as u64;
    }
    file.extend(bodies.concat());
    job.damage.iter().try_for_each(|each| damage(&mut file, each))?;
    Ok(file)
}

fn step(text: &str) -> Result<(u64, u64), Fault> {
    let (action, start) = text.split_once('@').ok_or(format!("not a step: '{text}'"))?;
    Ok((count(action, 0)?, count(start, 0)?))
}

// Steps as ACTION@START; from one to another as 0@0 to 31@31; of one action again and again as 3@0 to 3@45 by 15.
fn steps(text: &str) -> Result<Vec<u8>, Fault> {
    let mut plan = vec![];
    let words = words(text);
    let mut at = 0;
    while at < words.len() {
        let (action, start) = step(&words[at])?;
        let last = if words.get(at + 1).is_some_and(|word| word == "to") { at + 2 } else { at };
        let (last_action, last_start) = step(words.get(last).map_or("", String::as_str))?;
        let apart = words.get(last + 1).filter(|word| *word == "by").and(words.get(last + 2));
        let (next, later) = if let Some(minutes) = apart { (0, count(minutes, 0)?) } else { (1, 1) };
        let more = last_start.saturating_sub(start) / later.max(1);
        if last_action != action + next * more || last_start != start + later * more {
            return fault("not a range of steps", text);
        }
        for k in 0..=more {
            plan.extend(bytes_of(action + next * k, 1));
            plan.extend(bytes_of(start + later * k, 2));
        }
        at = last + if apart.is_some() { 3 } else { 1 };
    }
    Ok(plan)
}

// The plan that a record checks, and the goal set that it names.
fn plan(record: &mut Record, text: &str) -> Result<(), Fault> {
    for part in text.split(';').map(str::trim) {
        if let Some(goal) = part.strip_prefix("for ") {
            record.call = b'g';
            record.set = set(goal, 0)?;
        } else if let Some(bytes) = part.strip_prefix("bytes ") {
            for word in words(bytes) {
                record.input.extend(bytes_of(count(&word, 0)?, 1));
            }
        } else if let Some(length) = part.strip_prefix("cut to ") {
            record.input.truncate(count(length, 0)? as usize);
        } else if part != "no steps" {
            record.input = steps(part)?;
        }
    }
    Ok(())
}

// A plan with rates, which go before it: four of pools and four of stores, 0 where fewer are named, and a percentage.
fn priced(record: &mut Record, text: &str) -> Result<(), Fault> {
    let mut rates = [vec![], vec![], vec![]];
    let mut rest = vec![];
    for part in text.split(';').map(str::trim) {
        let (word, values) = part.split_once(' ').unwrap_or((part, ""));
        match word {
            "rates" => (rates[0], rates[1]) = (counts(values)?.repeat(4), counts(values)?.repeat(4)),
            "pools" => rates[0] = counts(values)?,
            "stores" => rates[1] = counts(values)?,
            "evening" => rates[2] = counts(values)?,
            _ => rest.push(part),
        }
    }
    plan(record, &rest.join(";"))?;
    let bytes = rates.iter().zip([4, 4, 1]).flat_map(|(rates, count)| amount_bytes(rates, count));
    record.input = bytes.chain(record.input.clone()).collect();
    record.call = b'q';
    Ok(())
}

// What is said beside the slice. The slice has the usual length where none is named.
fn beside_slice(record: &mut Record, usual: u64, text: &str) -> Result<String, Fault> {
    let mut rest = vec![];
    record.room = usual;
    for part in text.split(';').map(str::trim) {
        if let Some(length) = part.strip_prefix("slice of ") {
            record.room = count(length, 0)?;
        } else {
            rest.push(part);
        }
    }
    Ok(rest.join(";"))
}

// A question about a begun day: the current plan, the minute, which goes before it, the goal set and the slice.
fn replanned(record: &mut Record, text: &str) -> Result<(), Fault> {
    let mut minute = None;
    let mut rest = vec![];
    let text = &beside_slice(record, PLAN, text)?;
    for part in text.split(';') {
        if let Some(at) = part.strip_prefix("at ") {
            minute = Some(count(at, 0)?);
        } else {
            rest.push(part);
        }
    }
    plan(record, &rest.join(";"))?;
    let (Some(minute), b'g') = (minute, record.call) else { return fault("no minute or no goal set", text) };
    record.input = [bytes_of(minute, 4), record.input.clone()].concat();
    record.call = b'm';
    Ok(())
}

// A plan with true lengths, which go before it behind their number.
fn true_day(record: &mut Record, text: &str) -> Result<(), Fault> {
    let mut lengths = None;
    let mut rest = vec![];
    for part in text.split(';').map(str::trim) {
        let (word, values) = part.split_once(' ').unwrap_or((part, ""));
        if word == "lengths" {
            lengths = Some(counts(values)?);
        } else {
            rest.push(part);
        }
    }
    plan(record, &rest.join(";"))?;
    let (Some(lengths), b't') = (lengths, record.call) else { return fault("no lengths, or a goal set", text) };
    let bytes = [lengths.len() as u64].into_iter().chain(lengths).flat_map(|x| bytes_of(x, 1));
    record.input = bytes.chain(record.input.clone()).collect();
    Ok(())
}

// A second job, with which the first is pooled: its length, its file and, where one is named, the file of the job that
// they must become.
fn pooled(record: &mut Record, second: &str, expected: &str, names: &Names) -> Result<(), Fault> {
    let second = job_file(second, names)?;
    let expected = match beside_slice(record, SLICE, expected)?.as_str() {
        "" => vec![],
        job => job_file(job, names)?,
    };
    record.input = [bytes_of(second.len() as u64, 2), second, expected].concat();
    record.call = b'i';
    Ok(())
}

// The same where the pooled job is planned.
fn pooled_day(record: &mut Record, second: &str, names: &Names) -> Result<(), Fault> {
    pooled(record, second, "", names)?;
    (record.call, record.room) = (b'd', PLAN);
    Ok(())
}

// Two plans to be joined: the first behind its length, then the second.
fn joined(record: &mut Record, first: &str, second: &str) -> Result<(), Fault> {
    let second = beside_slice(record, PLAN, second)?;
    plan(record, first)?;
    let first = std::mem::take(&mut record.input);
    plan(record, &second)?;
    if record.call != b'j' {
        return fault("a goal set", &second);
    }
    record.input = [bytes_of(first.len() as u64, 1), first, record.input.clone()].concat();
    Ok(())
}

// A day in two halves: the halfway set and the slice.
fn halved(record: &mut Record, text: &str) -> Result<(), Fault> {
    let halfway = beside_slice(record, PLAN, text)?;
    record.set = set(&halfway, 0)?;
    record.call = b'a';
    Ok(())
}

// A question to the list: the place and the slice.
fn listed(record: &mut Record, text: &str) -> Result<(), Fault> {
    let place = beside_slice(record, PLAN, text)?;
    let place = count(place.strip_prefix("place ").ok_or(format!("no place: '{text}'"))?, 0)?;
    record.input = bytes_of(place, 4);
    Ok(())
}

// What a call is given beside the job of its row.
fn given(record: &mut Record, call: &str, inputs: &[&str], names: &Names) -> Result<(), Fault> {
    record.call = call.bytes().next().unwrap_or(0);
    match (call, inputs) {
        ("read", []) => (),
        ("check", [input]) => plan(record, input)?,
        ("price", [input]) => priced(record, input)?,
        ("replan", [input]) => replanned(record, input)?,
        ("true_day", [input]) => true_day(record, input)?,
        ("earliest", [input]) => record.set = set(input, 0)?,
        ("rewrite" | "plan", [input]) => record.room = count(input.strip_prefix("slice of ").unwrap_or(input), 0)?,
        ("bytes", [input]) => {
            let (from, to) = input.split_once(" to ").ok_or(format!("not a range: '{input}'"))?;
            (record.set, record.room) = (count(from, 0)?, count(to, 0)?);
        }
        ("pool", [second]) => pooled(record, second, "", names)?,
        ("pool", [second, expected]) => pooled(record, second, expected, names)?,
        ("pool_day", [second]) => pooled_day(record, second, names)?,
        ("join", [first, second]) => joined(record, first, second)?,
        ("halves", [input]) => halved(record, input)?,
        ("list", [input]) => listed(record, input)?,
        _ => return fault("not what a row of a table has", call),
    }
    if call == "rewrite" {
        record.call = b'w';
    }
    Ok(())
}

// The answer as it is printed: each step of a plan that is told behind a colon.
fn printed(answer: &str) -> Result<String, Fault> {
    let Some((told, plan)) = answer.split_once(": ").filter(|(_, plan)| *plan != "no steps") else {
        return Ok(answer.to_string());
    };
    let plan = steps(plan)?;
    let step = |bytes: &[u8]| format!(" {}@{}", bytes[0], u16::from_le_bytes([bytes[1], bytes[2]]));
    Ok(format!("{told}:{}", plan.chunks_exact(3).map(step).collect::<String>()))
}

// A row of a table: its call and title, the job, what else the call is given, and the answer.
fn row(line: &str, names: &Names) -> Result<(Record, String), Fault> {
    let columns: Vec<&str> = line.split('|').map(str::trim).collect();
    let [first, job, inputs @ .., answer] = columns.as_slice() else { return fault("not a row of a table", line) };
    let (call, title) = first.split_once(' ').unwrap_or((first, ""));
    let mut record = Record { title: title.trim().to_string(), file: job_file(job, names)?, ..Record::default() };
    given(&mut record, call, inputs, names)?;
    Ok((record, printed(answer)?))
}

// A record as the program reads it: the head, then the title, the file and the input.
fn record_bytes(record: &Record) -> Result<Vec<u8>, Fault> {
    let title = record.title.as_bytes();
    let files = [record.file.len() as u64, record.room];
    if title.len() > 255 || files.iter().any(|length| *length > SLICE) || record.input.len() as u64 > INPUT {
        return fault("a title, file, input or slice is too long", &record.title);
    }
    let body = [title, &record.file, &record.input].concat();
    let mut bytes = vec![record.call, title.len() as u8];
    bytes.extend([record.file.len(), body.len(), record.room as usize].iter().flat_map(|x| bytes_of(*x as u64, 2)));
    bytes.extend(bytes_of(record.set, 8));
    bytes.extend(body);
    Ok(bytes)
}

// The names of all tables: `job NAME: changes` or `change NAME: changes`, and the indented lines below.
fn names_in(lines: &[(String, String)]) -> Result<Names, Fault> {
    let mut names = Names::new();
    let mut open = String::new();
    for (place, line) in lines {
        let defined = line.strip_prefix("job ").or(line.strip_prefix("change "));
        if let Some((name, changes)) = defined.map(|text| text.split_once(':').unwrap_or((text, ""))) {
            open = name.trim().to_string();
            if names.insert(open.clone(), vec![]).is_some() {
                return Err(format!("{place}: the name '{open}' is taken"));
            }
            add_changes(&mut names, &open, changes).map_err(|what| format!("{place}: {what}"))?;
        } else if line.starts_with(' ') {
            add_changes(&mut names, &open, line).map_err(|what| format!("{place}: {what}"))?;
        }
    }
    Ok(names)
}

fn add_changes(names: &mut Names, name: &str, text: &str) -> Result<(), Fault> {
    for change in text.split(';').map(str::trim).filter(|change| !change.is_empty()) {
        if change == name {
            return fault("a job that is made from itself", name);
        }
        names.entry(name.to_string()).or_default().push(change.to_string());
    }
    Ok(())
}

// The records of the tables, and what they are to print.
fn tables(lines: &[(String, String)]) -> Result<(Vec<u8>, String), Fault> {
    let names = names_in(lines)?;
    let mut records = vec![];
    let mut output = String::new();
    for (place, line) in lines {
        let defines = ["job ", "change ", " "].iter().any(|start| line.starts_with(start));
        if let Some(sentence) = line.strip_prefix("heading ") {
            let record = Record { call: b'h', title: sentence.to_string(), ..Record::default() };
            records.extend(record_bytes(&record)?);
            output += &format!("{sentence}\n");
        } else if !defines {
            let (record, answer) = row(line, &names).map_err(|what| format!("{place}: {what}"))?;
            records.extend(record_bytes(&record).map_err(|what| format!("{place}: {what}"))?);
            output += &format!("  {}: {answer}\n", record.title);
        }
    }
    Ok((records, output))
}

fn main() {
    let arguments: Vec<String> = std::env::args().collect();
    let [_, records_path, output_path, paths @ ..] = arguments.as_slice() else {
        panic!("usage: records RECORDS STDOUT TABLE..");
    };
    let mut lines = vec![];
    for path in paths {
        let text = std::fs::read_to_string(path).unwrap_or_else(|why| panic!("{path}: {why}"));
        let numbered = text.lines().map(str::trim_end).enumerate();
        let kept = numbered.filter(|(_, line)| !line.is_empty() && !line.trim_start().starts_with('#'));
        lines.extend(kept.map(|(k, line)| (format!("{path}:{}", k + 1), line.to_string())));
    }
    match tables(&lines) {
        Ok((records, output)) => {
            std::fs::write(records_path, records).expect("the records cannot be written");
            std::fs::write(output_path, output).expect("the output cannot be written");
        }
        Err(what) => {
            eprintln!("{what}");
            std::process::exit(1);
        }
    }
}
