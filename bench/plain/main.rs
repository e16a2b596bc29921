//! A plain program for the same two commands, written by hand, without proofs: the yardstick of the benchmarks.
//! It reads CSV with quotes, refuses the same files (by a word alone), and prints the same lines.

use std::collections::{BinaryHeap, HashMap};
use std::fmt::Write as _;
use std::io::{Read, Write};

struct Lecturer<'a> { key: &'a str, capacity: u32, list: Vec<&'a str> }
struct Project<'a> { key: &'a str, capacity: u32, lecturer: &'a str }
struct Student<'a> { key: &'a str, list: Vec<&'a str> }

struct Instance<'a> {
    students: Vec<&'a str>,
    projects: Vec<&'a str>,
    choices: Vec<Vec<u32>>,
    lecturer_of: Vec<u32>,
    capacity: Vec<u32>,
    limit: Vec<u32>,
    rankings: Vec<Vec<u32>>,
    ranks: Vec<Vec<u32>>,
}

const NONE: u32 = u32::MAX;

fn records(text: &str) -> Result<Vec<Vec<String>>, &'static str> {
    let mut all = Vec::new();
    let mut row = Vec::new();
    let mut field = String::new();
    let mut quoted = false;
    let mut chars = text.chars().peekable();
    while let Some(c) = chars.next() {
        match (quoted, c) {
            (true, '"') if chars.peek() == Some(&'"') => { chars.next(); field.push('"'); }
            (true, '"') => quoted = false,
            (true, c) => field.push(c),
            (false, '"') if field.is_empty() => quoted = true,
            (false, ',') => row.push(std::mem::take(&mut field)),
            (false, '\r') => {}
            (false, '\n') => {
                if !row.is_empty() || !field.is_empty() {
                    row.push(std::mem::take(&mut field));
                    all.push(std::mem::take(&mut row));
                }
            }
            (false, c) => field.push(c),
        }
    }
    if !row.is_empty() || !field.is_empty() {
        row.push(field);
        all.push(row);
    }
    Ok(all)
}

fn list(field: &str) -> Vec<&str> {
    if field.is_empty() { Vec::new() } else { field.split(' ').collect() }
}

fn is_key(text: &str) -> bool {
    (1..=16).contains(&text.len()) && text.bytes().all(|b| b.is_ascii_alphanumeric() || b"-_.".contains(&b))
}

fn numbers<'a>(keys: &[&'a str]) -> Result<HashMap<&'a str, u32>, &'static str> {
    let mut map = HashMap::new();
    for (n, key) in keys.iter().enumerate() {
        if !is_key(key) { return Err("bad_key"); }
        if map.insert(*key, n as u32).is_some() { return Err("key_twice"); }
    }
    Ok(map)
}

fn build<'a>(
    mut lecturers: Vec<Lecturer<'a>>,
    mut projects: Vec<Project<'a>>,
    mut students: Vec<Student<'a>>,
) -> Result<Instance<'a>, &'static str> {
    if lecturers.len() > 300 || projects.len() > 1000 || students.len() > 2000 { return Err("too_many"); }
    lecturers.sort_by_key(|x| x.key);
    projects.sort_by_key(|x| x.key);
    students.sort_by_key(|x| x.key);
    let student_keys: Vec<_> = students.iter().map(|x| x.key).collect();
    let project_keys: Vec<_> = projects.iter().map(|x| x.key).collect();
    let lecturer_keys: Vec<_> = lecturers.iter().map(|x| x.key).collect();
    let (s, p, l) = (numbers(&student_keys)?, numbers(&project_keys)?, numbers(&lecturer_keys)?);
    let mut lecturer_of = Vec::new();
    for x in &projects {
        if !(1..=200).contains(&x.capacity) { return Err("bad_capacity"); }
        lecturer_of.push(*l.get(x.lecturer).ok_or("no_such_lecturer")?);
    }
    let mut choices = Vec::new();
    for x in &students {
        if x.list.len() > 20 { return Err("list_too_long"); }
        let mut row = Vec::new();
        for key in &x.list {
            let n = *p.get(key).ok_or("no_such_project")?;
            if row.contains(&n) { return Err("repeat_in_list"); }
            row.push(n);
        }
        choices.push(row);
    }
    let mut ranks = vec![vec![NONE; students.len()]; lecturers.len()];
    let mut rankings = Vec::new();
    for (number, x) in lecturers.iter().enumerate() {
        if !(1..=200).contains(&x.capacity) { return Err("bad_capacity"); }
        let mut row = Vec::new();
        for (place, key) in x.list.iter().enumerate() {
            let n = *s.get(key).ok_or("not_applicant")?;
            if ranks[number][n as usize] != NONE { return Err("repeat_in_list"); }
            if !choices[n as usize].iter().any(|q| lecturer_of[*q as usize] == number as u32) { return Err("not_applicant"); }
            ranks[number][n as usize] = place as u32;
            row.push(n);
        }
        rankings.push(row);
    }
    for (student, row) in choices.iter().enumerate() {
        if row.iter().any(|q| ranks[lecturer_of[*q as usize] as usize][student] == NONE) { return Err("applicant_missing"); }
    }
    Ok(Instance {
        capacity: projects.iter().map(|x| x.capacity).collect(),
        limit: lecturers.iter().map(|x| x.capacity).collect(),
        students: student_keys, projects: project_keys, choices, lecturer_of, rankings, ranks,
    })
}

fn matching(i: &Instance, pairs: &[(&str, &str)]) -> Result<Vec<Option<u32>>, &'static str> {
    let mut m = vec![None; i.students.len()];
    let (mut at, mut with) = (vec![0; i.projects.len()], vec![0; i.limit.len()]);
    for (student, project) in pairs {
        let s = i.students.binary_search(student).map_err(|_| "pair_no_student")?;
        let p = i.projects.binary_search(project).map_err(|_| "pair_no_project")?;
        if !i.choices[s].contains(&(p as u32)) { return Err("pair_not_acceptable"); }
        if m[s].replace(p as u32).is_some() { return Err("student_twice"); }
        at[p] += 1;
        with[i.lecturer_of[p] as usize] += 1;
        if at[p] > i.capacity[p] { return Err("project_over"); }
        if with[i.lecturer_of[p] as usize] > i.limit[i.lecturer_of[p] as usize] { return Err("lecturer_over"); }
    }
    Ok(m)
}

fn check(i: &Instance, m: &[Option<u32>], out: &mut String) {
    let (mut at, mut with) = (vec![0; i.projects.len()], vec![0; i.limit.len()]);
    let (mut worst_at, mut worst_with) = (vec![None; i.projects.len()], vec![None; i.limit.len()]);
    for (s, project) in m.iter().enumerate() {
        if let Some(p) = project {
            let (p, l) = (*p as usize, i.lecturer_of[*p as usize] as usize);
            at[p] += 1;
            with[l] += 1;
            worst_at[p] = worst_at[p].max(Some(i.ranks[l][s]));
            worst_with[l] = worst_with[l].max(Some(i.ranks[l][s]));
        }
    }
    let mut count = 0;
    for (s, list) in i.choices.iter().enumerate() {
        let better = list.iter().position(|p| Some(*p) == m[s]).unwrap_or(list.len());
        let mut wanted = list[..better].to_vec();
        wanted.sort_unstable();
        for p in wanted {
            let (p, l) = (p as usize, i.lecturer_of[p as usize] as usize);
            let rank = Some(i.ranks[l][s]);
            let letter = if at[p] < i.capacity[p] {
                if with[l] < i.limit[l] { 'a' }
                else if m[s].is_some_and(|q| i.lecturer_of[q as usize] as usize == l) || rank < worst_with[l] { 'b' }
                else { continue }
            } else if rank < worst_at[p] { 'c' } else { continue };
            count += 1;
            let _ = writeln!(out, "block {} {} {letter}", i.students[s], i.projects[p]);
        }
    }
    let _ = writeln!(out, "blocking {count}");
}

fn solve(i: &Instance) -> Vec<Option<u32>> {
    let mut m: Vec<Option<u32>> = vec![None; i.students.len()];
    let mut cursor = vec![0; i.students.len()];
    let (mut at, mut with) = (vec![0; i.projects.len()], vec![0; i.limit.len()]);
    let (mut cut_at, mut cut_with) = (vec![NONE; i.projects.len()], vec![NONE; i.limit.len()]);
    let mut heap_at: Vec<BinaryHeap<(u32, u32)>> = vec![BinaryHeap::new(); i.projects.len()];
    let mut heap_with: Vec<BinaryHeap<(u32, u32, u32)>> = vec![BinaryHeap::new(); i.limit.len()];
    let mut free: Vec<u32> = (0..i.students.len() as u32).rev().collect();
    while let Some(s) = free.pop() {
        let student = s as usize;
        while let Some(p) = i.choices[student].get(cursor[student]).map(|p| *p as usize) {
            let l = i.lecturer_of[p] as usize;
            let rank = i.ranks[l][student];
            if rank >= cut_at[p] || rank >= cut_with[l] { cursor[student] += 1; continue }
            m[student] = Some(p as u32);
            at[p] += 1;
            with[l] += 1;
            heap_at[p].push((rank, s));
            heap_with[l].push((rank, s, p as u32));
            let out = if at[p] > i.capacity[p] {
                loop {
                    let (rank, t) = heap_at[p].pop().unwrap();
                    if m[t as usize] == Some(p as u32) { cut_at[p] = rank; break Some(t) }
                }
            } else if with[l] > i.limit[l] {
                loop {
                    let (rank, t, q) = heap_with[l].pop().unwrap();
                    if m[t as usize] == Some(q) { cut_with[l] = rank; break Some(t) }
                }
            } else { None };
            if let Some(t) = out {
                let q = m[t as usize].take().unwrap() as usize;
                at[q] -= 1;
                with[l] -= 1;
                free.push(t);
            }
            break;
        }
    }
    let _ = &i.rankings;
    m
}

fn run(command: &str, text: &str, out: &mut String) -> Result<(), &'static str> {
    let records = records(text.trim_start_matches('\u{feff}'))?;
    let (header, records) = records.split_first().ok_or("no_header")?;
    if header.join(",") != "kind,key,value,list" { return Err("bad_header"); }
    if records.len() > 5300 { return Err("too_many_rows"); }
    let (mut lecturers, mut projects, mut students, mut pairs) = (Vec::new(), Vec::new(), Vec::new(), Vec::new());
    for record in records {
        let [kind, key, value, field] = record.as_slice() else { return Err("field_count") };
        match kind.as_str() {
            "L" => lecturers.push(Lecturer { key, capacity: value.parse().map_err(|_| "bad_field")?, list: list(field) }),
            "P" => projects.push(Project { key, capacity: value.parse().map_err(|_| "bad_field")?, lecturer: field }),
            "S" if value.is_empty() => students.push(Student { key, list: list(field) }),
            "M" if field.is_empty() => pairs.push((key.as_str(), value.as_str())),
            _ => return Err("bad_field"),
        }
    }
    let instance = build(lecturers, projects, students)?;
    let m = matching(&instance, &pairs)?;
    if command == "check" {
        check(&instance, &m, out);
        return Ok(());
    }
    let best = solve(&instance);
    for (s, project) in best.iter().enumerate() {
        let _ = match project {
            Some(p) => writeln!(out, "assign {} {}", instance.students[s], instance.projects[*p as usize]),
            None => writeln!(out, "none {}", instance.students[s]),
        };
    }
    let assigned = best.iter().flatten().count();
    let _ = writeln!(out, "assigned {assigned} unassigned {}", best.len() - assigned);
    Ok(())
}

fn main() {
    let command = std::env::args().nth(1).unwrap_or_default();
    let mut bytes = Vec::new();
    if std::io::stdin().read_to_end(&mut bytes).is_err() { println!("fault read"); return; }
    let mut out = String::new();
    let text = match String::from_utf8(bytes) { Ok(text) => text, Err(_) => { println!("refused not_text"); return; } };
    if let Err(word) = run(&command, &text, &mut out) { out = format!("refused {word}\n"); }
    let _ = std::io::stdout().write_all(out.as_bytes());
}
