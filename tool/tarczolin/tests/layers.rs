//! Modules stand in layers: what a file imports lies below it, so no file is reached from itself.
use std::collections::{BTreeMap, BTreeSet};
use std::fs;
use std::path::Path;

type Module = Vec<String>;

/// The files below a folder, each as the module that it is.
fn modules(folder: &Path, at: &Module, all: &mut BTreeMap<Module, String>) {
    for entry in fs::read_dir(folder).unwrap() {
        let path = entry.unwrap().path();
        let stem = path.file_stem().unwrap().to_string_lossy().into_owned();
        let inner = [at.clone(), vec![stem.clone()]].concat();
        if path.is_dir() {
            modules(&path, &inner, all);
        } else if path.extension().is_some_and(|e| e == "rs") {
            let module = if ["mod", "lib", "main"].contains(&stem.as_str()) { at.clone() } else { inner };
            *all.entry(module).or_default() += &fs::read_to_string(&path).unwrap();
        }
    }
}

/// The paths that a text writes behind `root::`, a list in braces taken apart.
fn paths(text: &str, root: &str) -> Vec<Module> {
    let word = |c: char| c.is_alphanumeric() || c == '_' || c == ':';
    let parts = |path: &str| path.split("::").filter(|part| !part.is_empty()).map(str::to_string).collect();
    let mut all = Vec::new();
    for behind in text.split(root).skip(1) {
        if let Some(list) = behind.strip_prefix('{') {
            let list = list.split('}').next().unwrap();
            all.extend(list.split(',').map(|item| parts(item.trim().split([' ', '{']).next().unwrap())));
        } else {
            all.push(parts(behind.split(|c| !word(c)).next().unwrap()));
        }
    }
    all
}

/// The longest beginning of a path that is a file.
fn file(all: &BTreeMap<Module, String>, path: Module) -> Option<Module> {
    (1..=path.len()).rev().map(|length| path[..length].to_vec()).find(|module| all.contains_key(module))
}

/// What each file imports. A folder's own file imports the files beside it.
fn imports(all: &BTreeMap<Module, String>) -> BTreeMap<Module, BTreeSet<Module>> {
    let of = |(module, text): (&Module, &String)| {
        let code: String = text.lines().filter(|line| !line.trim_start().starts_with("//")).map(|l| format!("{l}\n")).collect();
        let around = module[..module.len().saturating_sub(1)].to_vec();
        let beside = paths(&code, "super::").into_iter().filter(|p| !p.is_empty()).map(|p| [around.clone(), p].concat());
        let inside = paths(&code, "\nmod ").into_iter().chain(paths(&code, "\npub mod ")).map(|p| [module.clone(), p].concat());
        let named = paths(&code, "crate::").into_iter().chain(beside).chain(inside);
        let files = named.filter_map(|path| file(all, path)).filter(|found| found != module);
        (module.clone(), files.collect())
    };
    all.iter().map(of).collect()
}

#[test]
fn imports_point_down() {
    let mut all = BTreeMap::new();
    modules(&Path::new(env!("CARGO_MANIFEST_DIR")).join("src"), &Vec::new(), &mut all);
    let mut left = imports(&all);
    assert!(left.len() > 30 && left.values().map(BTreeSet::len).sum::<usize>() > 80, "the imports are found");
    // takes away, again and again, what imports nothing that is left
    loop {
        let free: BTreeSet<Module> = left.iter().filter(|(_, needs)| needs.is_empty()).map(|(m, _)| m.clone()).collect();
        if free.is_empty() {
            break;
        }
        left.retain(|module, _| !free.contains(module));
        left.values_mut().for_each(|needs| needs.retain(|need| !free.contains(need)));
    }
    assert!(left.is_empty(), "these import each other in a circle: {left:#?}");
}
