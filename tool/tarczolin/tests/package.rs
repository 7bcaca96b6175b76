//! What `make install` puts where and `make uninstall` takes away, and the Debian package: installed, used and removed.
mod common;

use common::folder;
use std::collections::BTreeSet;
use std::path::{Path, PathBuf};
use std::process::Command;
use tarczolin_tests::files::path;

/// Runs a shell command from the top of the repository: whether it ends well, and what it says.
fn shell(script: &str) -> (bool, String) {
    let output = Command::new("sh").args(["-c", &format!("({script}) 2>&1")]).current_dir(path(".")).output().unwrap();
    (output.status.success(), String::from_utf8_lossy(&output.stdout).into_owned())
}

/// An empty folder.
fn empty(name: &str) -> PathBuf {
    let folder = folder(name);
    std::fs::remove_dir_all(&folder).unwrap();
    std::fs::create_dir_all(&folder).unwrap();
    folder
}

/// The files below a folder, links too.
fn files(folder: &Path) -> BTreeSet<String> {
    let said = shell(&format!("cd {} && find . ! -type d", folder.display())).1;
    said.lines().map(|line| line[2..].to_string()).collect()
}

/// make, with the build left out: what cargo built is there already.
fn make(words: &str) -> (bool, String) {
    let tool = env!("CARGO_BIN_EXE_tarczolin");
    shell(&format!("make -s {words} -o tool -o target/staticlib/libtarczolin.a TOOL={tool} SOURCES="))
}

const FILES: [&str; 10] = [
    "bin/tarczolin",
    "include/tarczolin.h",
    "lib/libtarczolin.a",
    "lib/libtarczolin.so",
    "lib/libtarczolin.so.0",
    "lib/pkgconfig/tarczolin.pc",
    "share/bash-completion/completions/tarczolin",
    "share/fish/vendor_completions.d/tarczolin.fish",
    "share/man/man1/tarczolin.1",
    "share/zsh/site-functions/_tarczolin",
];

/// The files of the Python package.
fn modules() -> BTreeSet<String> {
    let named = |name: &str| name.ends_with(".py") || name == "py.typed";
    files(&path("python/tarczolin")).into_iter().filter(|name| named(name)).collect()
}

#[test]
fn make_install_and_uninstall() {
    let to = empty("installed");
    let words = format!("DESTDIR={} PREFIX=/usr PYTHONDIR=/usr/lib/python3/dist-packages", to.display());
    assert_eq!(make(&format!("install {words}")), (true, String::new()));
    let package = modules().into_iter().map(|name| format!("lib/python3/dist-packages/tarczolin/{name}"));
    let wanted: BTreeSet<String> =
        FILES.map(str::to_string).into_iter().chain(package).map(|name| format!("usr/{name}")).collect();
    assert_eq!(files(&to), wanted);
    assert!(
        wanted.len() > 18
            && files(&to).iter().all(|name| std::fs::metadata(to.join(name)).unwrap().len() > 0 || name.ends_with("py.typed"))
    );
    let config = std::fs::read_to_string(to.join("usr/lib/pkgconfig/tarczolin.pc")).unwrap();
    assert!(config.contains("Libs: -L${prefix}/lib -ltarczolin\n") && config.contains("prefix=/usr\n"), "{config}");
    assert!(config.contains(concat!("Version: ", env!("CARGO_PKG_VERSION"), "\n")), "{config}");
    // what belongs to others stays
    std::fs::write(to.join("usr/bin/other"), "").unwrap();
    std::fs::write(to.join("usr/lib/python3/dist-packages/other.py"), "").unwrap();
    used(&to, "");
    assert_eq!(make(&format!("uninstall {words}")), (true, String::new()));
    let left = ["usr/bin/other", "usr/lib/python3/dist-packages/other.py"].map(str::to_string);
    assert_eq!(files(&to), left.into());
    assert!(!to.join("usr/lib/python3/dist-packages/tarczolin").exists() && to.join("usr/bin").exists());
    assert_eq!(make(&format!("uninstall {words}")), (true, String::new()), "a second time there is nothing to take away");
}

/// What was installed below a root is used from there: the command, the library from C, the package from Python.
fn used(root: &Path, page: &str) {
    let usr = root.join("usr").display().to_string();
    let queue = path("examples/queue-broken.asm").display().to_string();
    let (_, said) = shell(&format!("{usr}/bin/tarczolin violation {queue}"));
    assert_eq!(said, "00000102020201\n");
    let build = format!("cc -I{usr}/include examples/first.c -L{usr}/lib -ltarczolin -o {usr}/first");
    let run = format!("LD_LIBRARY_PATH={usr}/lib {usr}/first < examples/queue-broken.hex; rm {usr}/first");
    assert_eq!(shell(&format!("{build} && {run}")), (true, "00000102020201\n".to_string()));
    // nothing of the repository is beside it: the package finds the library and the command below its own prefix
    let python = format!(
        "cd / && unset TARCZOLIN_LIBRARY TARCZOLIN_COMMAND PYTHONDONTWRITEBYTECODE PYTHONPYCACHEPREFIX; \
         PYTHONPATH={usr}/lib/python3/dist-packages python3 -c \
         'import tarczolin as t; print(t.library_path()); print(t.Program.read(\"{queue}\").violation())'"
    );
    assert_eq!(shell(&python), (true, format!("{usr}/lib/libtarczolin.so\n00000102020201\n")));
    let manual = root.join(format!("usr/share/man/man1/tarczolin.1{page}"));
    let (_, manual) = shell(&format!("gzip -cdf {}", manual.display()));
    assert!(manual.contains(".SH TEXT FORM") && manual.contains("\nn = fetch_add tail 1\n"), "{manual}");
}

/// dpkg with a root of its own, which has nothing but what is installed there.
fn dpkg(root: &Path, words: &str) -> (bool, String) {
    shell(&format!("dpkg --root={} --force-depends --force-not-root --force-script-chrootless {words}", root.display()))
}

#[test]
fn the_debian_package() {
    if Command::new("dpkg-deb").arg("--version").output().is_err() {
        println!("not run: dpkg is not installed here");
        return;
    }
    let (at, root) = (empty("deb"), empty("deb-root"));
    let package = at.join("tarczolin.deb");
    let made = make(&format!("deb DEBROOT={} DEB={}", at.join("tree").display(), package.display()));
    assert_eq!(made, (true, format!("{}\n", package.display())));
    let (_, about) = shell(&format!("dpkg-deb --field {}", package.display()));
    assert!(about.starts_with(concat!("Package: tarczolin\nVersion: ", env!("CARGO_PKG_VERSION"), "\n")), "{about}");
    std::fs::create_dir_all(root.join("var/lib/dpkg/info")).unwrap();
    std::fs::create_dir_all(root.join("var/lib/dpkg/updates")).unwrap();
    std::fs::write(root.join("var/lib/dpkg/status"), "").unwrap();
    let (done, said) = dpkg(&root, &format!("--install {}", package.display()));
    assert!(done, "{said}");
    assert!(dpkg(&root, "--status tarczolin").1.contains("Status: install ok installed"));
    let installed: BTreeSet<String> = files(&root).into_iter().filter(|name| name.starts_with("usr/")).collect();
    let modules = modules().into_iter().map(|name| format!("usr/lib/python3/dist-packages/tarczolin/{name}"));
    let manual = |name: &str| format!("usr/{name}{}", if name.contains("/man1/") { ".gz" } else { "" });
    let documents = ["README.md", "docs/GUIDE.md", "docs/FORMAT.md", "docs/CONTRACT.md", "docs/schema.json"];
    let examples = ["examples/queue-broken.asm", "examples/cluster/piece"];
    let documents = documents.into_iter().chain(examples).map(|name| format!("usr/share/doc/tarczolin/{name}"));
    for name in FILES.iter().map(|name| manual(name)).chain(modules).chain(documents) {
        assert!(installed.contains(&name), "{name}");
    }
    assert!(installed.iter().all(|name| !name.contains("__pycache__")));
    let (right, said) = shell(&format!("cd {} && md5sum --quiet --check var/lib/dpkg/info/tarczolin.md5sums", root.display()));
    assert!(right, "{said}");
    used(&root, ".gz");
    let suite =
        format!("cd {0}/usr/share/doc/tarczolin && {0}/usr/bin/tarczolin test examples/suite tests/litmus", root.display());
    let (holds, said) = shell(&suite);
    assert!(holds && said.contains(" ok, 0 FAILS, 0 refused, 0 without expectation; "), "{said}");
    assert!(files(&root).iter().any(|name| name.contains("__pycache__")), "what Python adds is taken away as well");
    let (done, said) = dpkg(&root, "--purge tarczolin");
    assert!(done, "{said}");
    assert_eq!(files(&root).into_iter().filter(|name| !name.starts_with("var/")).collect::<Vec<_>>(), Vec::<String>::new());
    assert!(!root.join("usr").exists() && !dpkg(&root, "--status tarczolin").0);
}
