//! Which crates there are: a package, what it depends on, and the standard library.

use std::collections::{BTreeMap, BTreeSet, HashMap, HashSet};
use std::path::{Path, PathBuf};
use std::process::Command;
use std::time::SystemTime;

use anyhow::{bail, Context, Result};
use cargo_metadata::{
    BuildScript, CargoOpt, DependencyKind, Metadata, MetadataCommand, Node, NodeDep, Package, PackageId, Target,
};

use crate::cfg::Options;
use crate::kept::{configurations, environment, files_of_tool, Keeper};
use crate::workspace::bytes_of;

/// What is asked for on the command line.
#[derive(Clone, Debug, Default)]
pub struct Wanted {
    /// A folder with a `Cargo.toml`, or that file.
    pub path: PathBuf,
    /// Names of packages in place of those at the path.
    pub packages: Vec<String>,
    /// As Cargo has `--features`.
    pub features: Vec<String>,
    /// As Cargo has `--all-features`.
    pub all_features: bool,
    /// As Cargo has `--no-default-features`.
    pub no_default_features: bool,
    /// With `cfg(test)`, tests, examples and what these depend on.
    pub test: bool,
    /// Whether Cargo may fetch.
    pub online: bool,
    /// Without the standard library's sources: the stub stands for it.
    pub no_std: bool,
    /// The folder `library` of the standard library's sources.
    pub std_sources: Option<PathBuf>,
    /// Further options of the packages that are asked for, as `rustc --cfg` takes them.
    pub cfg: Vec<String>,
    /// What Cargo says of a build, as it does with `--message-format json`.
    pub built: Option<PathBuf>,
    /// Configuration for Cargo, as `cargo --config` takes it.
    pub config: Vec<String>,
}

/// A crate as it is handed in, and what is known of it besides.
#[derive(Clone, Debug)]
pub struct Krate {
    /// As paths name it.
    pub name: String,
    /// As Cargo names the package, with the target where that isn't its library.
    pub title: String,
    /// As `2021`.
    pub edition: String,
    /// The file of its root module.
    pub root: PathBuf,
    /// The conditions that hold in it.
    pub options: Options,
    /// What `env!` has in it, as far as Cargo sets that.
    pub variables: BTreeMap<String, String>,
    /// The number, the name, and whether paths may begin with it.
    pub dependencies: Vec<(u32, String, bool)>,
    /// Whether it exports procedural macros.
    pub is_proc_macro: bool,
    /// Whether its diagnostics are told.
    pub is_asked: bool,
    /// Whether its package has a build script of which nothing is known.
    pub has_build_script: bool,
    /// Whether it is the stub of a crate of the standard library.
    pub is_stub: bool,
}

/// The crates of a session, each behind those that it depends on.
#[derive(Clone, Debug, Default)]
pub struct Crates {
    /// By their numbers.
    pub all: Vec<Krate>,
    /// How many of them are the standard library's, which come first.
    pub of_std: usize,
    /// Where the package lies, or the workspace.
    pub folder: PathBuf,
    /// What stands for the standard library, in words.
    pub std: String,
}

/// What a build script said and where it wrote.
#[derive(Clone, Debug, Default)]
struct Script {
    /// The conditions that it set.
    options: Vec<String>,
    /// What `env!` has besides, with its folder as `OUT_DIR`.
    variables: BTreeMap<String, String>,
}

/// What Cargo says of the build scripts that it ran, by packages.
fn scripts_in(path: &Path) -> Result<HashMap<PackageId, Script>> {
    let bytes = bytes_of(path).with_context(|| format!("{} can't be read", path.display()))?;
    let text = String::from_utf8_lossy(&bytes);
    let messages = text.lines().filter_map(|it| serde_json::from_str::<serde_json::Value>(it).ok());
    let messages: Vec<_> = messages.filter(|it| it["reason"].is_string()).collect();
    let mut scripts: HashMap<PackageId, Script> = HashMap::new();
    for it in messages.iter().filter(|it| it["reason"] == "build-script-executed") {
        let ran: BuildScript = serde_json::from_value(it.clone()).with_context(|| format!("{it}"))?;
        let script = scripts.entry(ran.package_id).or_default();
        script.options.extend(ran.cfgs);
        script.variables.extend(ran.env);
        script.variables.insert("OUT_DIR".to_owned(), ran.out_dir.into_string());
    }
    if messages.is_empty() {
        bail!("{} has no messages of Cargo; `cargo check --message-format json` writes them", path.display());
    }
    Ok(scripts)
}

fn rustc_name() -> std::ffi::OsString {
    std::env::var_os("RUSTC").unwrap_or_else(|| "rustc".into())
}

/// What rustc prints; the first line is its sysroot where that isn't given.
fn rustc(words: &[&str], unstable: bool, sysroot: Option<&Path>, keeper: &Keeper) -> Result<String> {
    let program = rustc_name();
    let mut asked = vec![program.to_string_lossy().into_owned(), unstable.to_string()];
    asked.extend(words.iter().map(|it| (*it).to_owned()).chain(environment()));
    if let Some(it) = keeper.find(&asked) {
        return Ok(it);
    }
    let at = SystemTime::now();
    let mut command = Command::new(&program);
    if unstable {
        // The standard library is compiled with conditions that rustc else keeps to itself.
        command.env("RUSTC_BOOTSTRAP", "1");
    }
    let ran = command.args(words).output();
    let ran = ran.with_context(|| format!("{} doesn't start; install a Rust toolchain", program.to_string_lossy()))?;
    if !ran.status.success() {
        bail!("rustc {} fails: {}", words.join(" "), String::from_utf8_lossy(&ran.stderr).trim());
    }
    let text = String::from_utf8_lossy(&ran.stdout).into_owned();
    let sysroot = sysroot.unwrap_or_else(|| Path::new(text.lines().next().unwrap_or_default()));
    let mut stands_on = files_of_tool(&program);
    stands_on.insert(sysroot.join("bin/rustc"));
    keeper.keep(&asked, at, stands_on, &text);
    Ok(text)
}

/// What Cargo tells of a package, or why it doesn't.
fn metadata_of(
    command: &MetadataCommand,
    manifest: &Path,
    wanted: &Wanted,
    toolchain: &Toolchain,
    keeper: &Keeper,
) -> Result<Metadata, String> {
    let mut command = command.cargo_command();
    // Cargo asks rustc as well. The package's configuration may name something else in its place, which isn't run.
    command.env("RUSTC", toolchain.rustc()).env("RUSTC_WRAPPER", "").env("RUSTC_WORKSPACE_WRAPPER", "");
    let program = command.get_program().to_owned();
    let mut asked = vec![program.to_string_lossy().into_owned()];
    asked.extend(command.get_args().map(|it| it.to_string_lossy().into_owned()).chain(environment()));
    if let Some(it) = keeper.find(&asked).and_then(|it| MetadataCommand::parse(it).ok()) {
        return Ok(it);
    }
    let at = SystemTime::now();
    let ran = command.output().map_err(|it| format!("{} doesn't start: {it}", program.to_string_lossy()))?;
    if !ran.status.success() {
        return Err(String::from_utf8_lossy(&ran.stderr).into_owned());
    }
    let text = String::from_utf8_lossy(&ran.stdout);
    let line = text.lines().find(|it| it.starts_with('{')).unwrap_or_default();
    let metadata = MetadataCommand::parse(line).map_err(|it| it.to_string())?;
    let mut stands_on = files_of_tool(&program);
    stands_on.extend(files_of_tool(&rustc_name()));
    stands_on.extend(configurations());
    stands_on.extend(wanted.config.iter().map(PathBuf::from));
    stands_on.extend(files_of_packages(&metadata, manifest));
    keeper.keep(&asked, at, stands_on, line);
    Ok(metadata)
}

/// The files and folders by which Cargo knows packages and their targets.
fn files_of_packages(metadata: &Metadata, manifest: &Path) -> BTreeSet<PathBuf> {
    let root = metadata.workspace_root.as_std_path();
    let mut made = BTreeSet::from([root.join("Cargo.lock")]);
    // A workspace may be declared in a folder around the package.
    let manifest = manifest.canonicalize().unwrap_or_default();
    made.extend(manifest.ancestors().skip(1).map(|it| it.join("Cargo.toml")));
    for it in &metadata.packages {
        let manifest = it.manifest_path.as_std_path();
        made.insert(manifest.to_owned());
        let Some(folder) = manifest.parent().filter(|_| it.source.is_none()) else {
            continue;
        };
        made.extend([folder.to_owned(), folder.join("src")]);
        for it in ["src/bin", "tests", "examples", "benches"].map(|it| folder.join(it)) {
            let entries = std::fs::read_dir(&it).into_iter().flatten().flatten();
            made.extend(entries.map(|it| it.path()).filter(|it| it.is_dir()));
            made.insert(it);
        }
        // Members may be all that are in a folder.
        made.extend(folder.ancestors().skip(1).take_while(|it| it.starts_with(root)).map(Path::to_owned));
    }
    made
}

/// What rustc says of itself.
struct Toolchain {
    sysroot: PathBuf,
    host: String,
    /// The conditions that are set for each crate.
    options: Options,
}

impl Toolchain {
    fn ask(keeper: &Keeper) -> Result<Toolchain> {
        let text = rustc(&["--print", "sysroot", "--print", "target-libdir", "--print", "cfg"], false, None, keeper)?;
        let mut lines = text.lines();
        let sysroot = lines.next().unwrap_or_default().into();
        // The folder is SYSROOT/lib/rustlib/HOST/lib.
        let libraries = Path::new(lines.next().unwrap_or_default());
        let host = libraries.parent().and_then(Path::file_name).unwrap_or_default().to_string_lossy().into_owned();
        let mut options = Options::default();
        lines.for_each(|it| options.set(it));
        Ok(Toolchain { sysroot, host, options })
    }

    /// The conditions that are set for the standard library's crates.
    fn options_of_std(&self, is_stub: bool, keeper: &Keeper) -> Result<Options> {
        let mut options = self.options.clone();
        if !is_stub {
            let text = rustc(&["--print", "cfg"], true, Some(&self.sysroot), keeper)?;
            text.lines().for_each(|it| options.set(it));
        }
        options.set("feature=\"panic-unwind\"");
        options.set("feature=\"backtrace\"");
        Ok(options)
    }

    /// The compiler itself, without what else may stand before it.
    fn rustc(&self) -> std::ffi::OsString {
        let own = self.sysroot.join("bin/rustc");
        match std::env::var_os("RUSTC").is_none() && own.is_file() {
            true => own.into(),
            false => rustc_name(),
        }
    }
}

/// The folder of the stub.
fn stub() -> PathBuf {
    Path::new(env!("CARGO_MANIFEST_DIR")).join("stub")
}

/// The standard library's crates in this folder: each with its root, behind those that it depends on.
fn crates_of_std(folder: &Path) -> [(&'static str, PathBuf, &'static [&'static str]); 9] {
    let vendor = ["vendor", "../vendor"].map(|it| folder.join(it));
    let cfg_if = vendor.iter().map(|it| it.join("cfg-if/src/lib.rs")).find(|it| it.is_file());
    let cfg_if = cfg_if.unwrap_or_else(|| stub().join("cfg-if/src/lib.rs"));
    let detect = ["std_detect", "stdarch/crates/std_detect"].map(|it| folder.join(it).join("src/lib.rs"));
    let detect = detect.iter().find(|it| it.is_file()).cloned().unwrap_or_default();
    let root = |name: &str| folder.join(name).join("src/lib.rs");
    [
        ("core", root("core"), &[]),
        ("cfg_if", cfg_if, &["core"]),
        ("alloc", root("alloc"), &["core"]),
        ("unwind", root("unwind"), &["core", "cfg_if"]),
        ("panic_unwind", root("panic_unwind"), &["core", "alloc", "cfg_if", "unwind"]),
        ("std_detect", detect, &["core", "alloc", "cfg_if"]),
        ("std", root("std"), &["core", "alloc", "cfg_if", "unwind", "panic_unwind", "std_detect"]),
        ("proc_macro", root("proc_macro"), &["core", "alloc", "std"]),
        ("test", root("test"), &["core", "alloc", "std", "proc_macro"]),
    ]
}

impl Crates {
    /// Finds the crates by Cargo's metadata, and those of the standard library.
    pub fn read(wanted: &Wanted) -> Result<Crates> {
        let manifest = if wanted.path.is_dir() { wanted.path.join("Cargo.toml") } else { wanted.path.clone() };
        if !manifest.is_file() {
            bail!("{} isn't there; give a folder with a Cargo.toml", manifest.display());
        }
        if let Some(it) = wanted.cfg.iter().find(|it| !Options::can_set(it)) {
            bail!("`{it}` is no condition; give --cfg NAME or --cfg 'NAME=\"VALUE\"'");
        }
        let mut command = MetadataCommand::new();
        command.manifest_path(&manifest);
        if wanted.all_features {
            command.features(CargoOpt::AllFeatures);
        }
        if wanted.no_default_features {
            command.features(CargoOpt::NoDefaultFeatures);
        }
        if !wanted.features.is_empty() {
            command.features(CargoOpt::SomeFeatures(wanted.features.clone()));
        }
        let keeper = Keeper::of(&manifest);
        let toolchain = Toolchain::ask(&keeper)?;
        let mut words = vec!["--filter-platform".to_owned(), toolchain.host.clone()];
        if !wanted.online {
            words.push("--offline".to_owned());
        }
        for it in &wanted.config {
            words.extend(["--config".to_owned(), it.clone()]);
        }
        command.other_options(words);
        let metadata = metadata_of(&command, &manifest, wanted, &toolchain, &keeper).map_err(|text| {
            let is_offline = !wanted.online && text.contains("offline");
            let hint = if is_offline { "\n--online lets Cargo fetch what isn't there" } else { "" };
            anyhow::anyhow!("Cargo can't resolve {}:\n{}{hint}", manifest.display(), text.trim())
        })?;
        let mut crates = Crates { folder: metadata.workspace_root.clone().into_std_path_buf(), ..Crates::default() };
        let sysroot = crates.sysroot(wanted, &toolchain, &keeper)?;
        crates.packages(wanted, &manifest, &metadata, &toolchain.options, &sysroot)?;
        Ok(crates)
    }

    /// All that is said of them, in words.
    pub(crate) fn words(&self) -> Vec<String> {
        let Crates { all, of_std, folder, std } = self;
        let mut made = vec![of_std.to_string(), folder.display().to_string(), std.clone()];
        for it in all {
            let Krate { name, title, edition, root, options, variables, dependencies, .. } = it;
            let Krate { is_proc_macro, is_asked, has_build_script, is_stub, .. } = it;
            let flags = options.flags.iter().cloned();
            let mut options: Vec<String> = flags.chain(options.values.iter().map(|it| format!("{it:?}"))).collect();
            options.sort();
            let is = [is_proc_macro, is_asked, has_build_script, is_stub];
            let root = root.display();
            made.push(format!("{name} {title} {edition} {root} {options:?} {variables:?} {dependencies:?} {is:?}"));
        }
        made
    }

    fn add(&mut self, krate: Krate) -> u32 {
        self.all.push(krate);
        self.all.len() as u32 - 1
    }

    /// Adds the standard library's crates; answers their numbers by name.
    fn sysroot(&mut self, wanted: &Wanted, toolchain: &Toolchain, keeper: &Keeper) -> Result<HashMap<String, u32>> {
        let mut sources = None;
        if !wanted.no_std {
            sources = match &wanted.std_sources {
                Some(it) => Some(it.clone()),
                None => Some(toolchain.sysroot.join("lib/rustlib/src/rust/library")).filter(|it| it.is_dir()),
            };
        }
        let is_stub = sources.is_none();
        let folder = sources.unwrap_or_else(stub);
        if !folder.join("core/src/lib.rs").is_file() {
            bail!("{} has no core/src/lib.rs; name the folder `library` of Rust's sources", folder.display());
        }
        let base = toolchain.options_of_std(is_stub, keeper)?;
        self.std = match (is_stub, wanted.no_std) {
            (false, _) => format!("std from {}", folder.display()),
            (true, true) => "a stub in place of std".to_owned(),
            (true, false) => "a stub in place of std, since the toolchain has no rust-src".to_owned(),
        };
        let mut numbers = HashMap::new();
        for (name, root, dependencies) in crates_of_std(&folder) {
            if !root.is_file() {
                continue;
            }
            let named = |it: &&str| numbers.get(*it).map(|n: &u32| (*n, (*it).to_owned(), true));
            let krate = Krate {
                name: name.to_owned(),
                title: name.to_owned(),
                edition: edition_of(&folder.join(name).join("Cargo.toml")),
                root,
                options: base.clone(),
                variables: BTreeMap::new(),
                dependencies: dependencies.iter().filter_map(named).collect(),
                is_proc_macro: false,
                is_asked: false,
                has_build_script: false,
                is_stub,
            };
            numbers.insert(name.to_owned(), self.add(krate));
        }
        self.of_std = self.all.len();
        Ok(numbers)
    }

    /// Adds the crates of the packages that are asked for and of all that these use.
    fn packages(
        &mut self,
        wanted: &Wanted,
        manifest: &Path,
        metadata: &Metadata,
        base: &Options,
        sysroot: &HashMap<String, u32>,
    ) -> Result<()> {
        let manifest = manifest.canonicalize().unwrap_or_else(|_| manifest.to_owned());
        let packages = Packages::find(wanted, &manifest, metadata)?;
        let scripts = wanted.built.as_deref().map(scripts_in).transpose()?.unwrap_or_default();
        let mut libraries: HashMap<PackageId, u32> = HashMap::new();
        for id in packages.ordered() {
            let used = packages.used_by(&id).into_iter().filter(|it| !it.1.is_empty());
            let script = scripts.get(&id).cloned();
            let is_built = script.is_some();
            let script = script.unwrap_or_default();
            let mut options = packages.options_of(&id, wanted, base);
            script.options.iter().for_each(|it| options.set(it));
            let shared = Shared {
                package: &metadata[&id],
                options,
                of_script: script.variables,
                is_built,
                dependencies: used.filter_map(|(id, name)| Some((*libraries.get(&id)?, name, true))).collect(),
                is_asked: packages.asked.contains(&id),
                has_tests: wanted.test,
            };
            if let Some(number) = self.targets(shared, sysroot) {
                libraries.insert(id, number);
            }
        }
        if !self.all.iter().any(|it| it.is_asked) {
            bail!("{} has neither a library nor a program", manifest.display());
        }
        Ok(())
    }

    /// Adds the crates of a package, its library first. Answers the number of that.
    fn targets(&mut self, shared: Shared, sysroot: &HashMap<String, u32>) -> Option<u32> {
        let Shared { package, options, dependencies, is_asked, .. } = &shared;
        let has_build_script = !shared.is_built && package.targets.iter().any(|it| is_of_kind(it, &["custom-build"]));
        let (library, others) = shared.targets();
        let mut own_library: Option<(u32, String)> = None;
        for target in library.into_iter().chain(others) {
            let is_proc_macro = is_of_kind(target, &["proc-macro"]);
            let is_library = library.is_some_and(|it| std::ptr::eq(it, target));
            let name = target.name.replace('-', "_");
            let mut dependencies = dependencies.clone();
            dependencies.extend(own_library.iter().map(|(number, name)| (*number, name.clone(), true)));
            for it in ["std", "core", "alloc", "proc_macro", "test"] {
                if let Some(number) = sysroot.get(it) {
                    let in_paths = it == "std" || it == "core" || (it == "proc_macro" && is_proc_macro);
                    dependencies.push((*number, it.to_owned(), in_paths));
                }
            }
            let title = match is_library {
                true => package.name.clone(),
                false => format!("{} ({} {})", package.name, target.kind.join(" "), target.name),
            };
            let number = self.add(Krate {
                name: name.clone(),
                title,
                edition: target.edition.to_string(),
                root: target.src_path.clone().into_std_path_buf(),
                options: options.clone(),
                variables: shared.variables(target),
                dependencies,
                is_proc_macro,
                is_asked: *is_asked,
                has_build_script,
                is_stub: false,
            });
            if is_library {
                own_library = Some((number, name));
            }
        }
        own_library.map(|it| it.0)
    }
}

/// The packages of which Cargo tells, and which of them are asked for.
struct Packages<'a> {
    nodes: HashMap<&'a PackageId, &'a Node>,
    asked: Vec<PackageId>,
    /// Whether those that are asked for stand on what their tests use as well.
    has_tests: bool,
}

impl<'a> Packages<'a> {
    /// Those that are named, else that of the manifest, else all members of its workspace are asked for.
    fn find(wanted: &Wanted, manifest: &Path, metadata: &'a Metadata) -> Result<Packages<'a>> {
        let resolve = metadata.resolve.as_ref().context("Cargo tells no dependencies")?;
        let is_own = |it: &&Package| it.manifest_path.as_std_path().canonicalize().is_ok_and(|it| it == manifest);
        let mut asked: Vec<PackageId> = match metadata.packages.iter().find(is_own) {
            _ if !wanted.packages.is_empty() => Vec::new(),
            Some(it) => vec![it.id.clone()],
            None => metadata.workspace_members.clone(),
        };
        for name in &wanted.packages {
            let before = asked.len();
            asked.extend(metadata.packages.iter().filter(|it| it.name == *name).map(|it| it.id.clone()));
            if asked.len() == before {
                bail!("the package `{name}` is none of those that {} stands on", manifest.display());
            }
        }
        let nodes = resolve.nodes.iter().map(|it| (&it.id, it)).collect();
        Ok(Packages { nodes, asked, has_tests: wanted.test })
    }

    /// The packages that one uses, each with the name that it has there.
    fn used_by(&self, id: &PackageId) -> Vec<(PackageId, String)> {
        let for_tests = self.has_tests && self.asked.contains(id);
        let is_used = |it: &&NodeDep| {
            it.dep_kinds.iter().any(|it| match it.kind {
                DependencyKind::Normal => true,
                DependencyKind::Development => for_tests,
                _ => false,
            })
        };
        let used = self.nodes.get(id).map_or(&[][..], |it| &it.deps).iter().filter(is_used);
        used.map(|it| (it.pkg.clone(), it.name.clone())).collect()
    }

    /// Those that are asked for and all that they use, each behind those that it uses.
    fn ordered(&self) -> Vec<PackageId> {
        let mut ordered = Vec::new();
        let mut seen = HashSet::new();
        // Depth first, by hand: a package may stand on thousands.
        for start in &self.asked {
            let mut stack = vec![(start.clone(), false)];
            while let Some((id, is_done)) = stack.pop() {
                if is_done {
                    ordered.push(id);
                } else if seen.insert(id.clone()) {
                    stack.push((id.clone(), true));
                    let used = self.used_by(&id).into_iter().rev().map(|it| it.0);
                    stack.extend(used.filter(|it| !seen.contains(it)).map(|it| (it, false)));
                }
            }
        }
        ordered
    }

    /// The conditions that hold in the crates of a package.
    fn options_of(&self, id: &PackageId, wanted: &Wanted, base: &Options) -> Options {
        let mut options = base.clone();
        for it in self.nodes.get(id).map_or(&[][..], |it| &it.features) {
            options.values.insert(("feature".to_owned(), it.clone()));
        }
        if self.asked.contains(id) {
            wanted.cfg.iter().for_each(|it| options.set(it));
            if wanted.test {
                options.set("test");
            }
        }
        options
    }
}

/// What the crates of a package share.
struct Shared<'a> {
    package: &'a Package,
    options: Options,
    /// What `env!` has by its build script.
    of_script: BTreeMap<String, String>,
    /// Whether it is known what its build script set and wrote.
    is_built: bool,
    dependencies: Vec<(u32, String, bool)>,
    is_asked: bool,
    /// Whether tests and examples are wanted of a package that is asked for.
    has_tests: bool,
}

impl<'a> Shared<'a> {
    /// What `env!` has in the crate of a target.
    fn variables(&self, target: &Target) -> BTreeMap<String, String> {
        let Package { name, version, manifest_path, .. } = self.package;
        let folder = manifest_path.parent().map_or(String::new(), |it| it.to_string());
        let mut made = self.of_script.clone();
        for (variable, value) in [
            ("CARGO_MANIFEST_DIR", folder),
            ("CARGO_MANIFEST_PATH", manifest_path.to_string()),
            ("CARGO_PKG_NAME", name.clone()),
            ("CARGO_PKG_VERSION", version.to_string()),
            ("CARGO_PKG_VERSION_MAJOR", version.major.to_string()),
            ("CARGO_PKG_VERSION_MINOR", version.minor.to_string()),
            ("CARGO_PKG_VERSION_PATCH", version.patch.to_string()),
            ("CARGO_PKG_VERSION_PRE", version.pre.to_string()),
            ("CARGO_CRATE_NAME", target.name.replace('-', "_")),
        ] {
            made.insert(variable.to_owned(), value);
        }
        if is_of_kind(target, &["bin"]) {
            made.insert("CARGO_BIN_NAME".to_owned(), target.name.clone());
        }
        made
    }

    /// The library, and the other targets that are read: none but of a package that is asked for.
    fn targets(&self) -> (Option<&'a Target>, Vec<&'a Target>) {
        let all = &self.package.targets;
        let of = |kinds: &'static [&str]| all.iter().filter(move |it| is_of_kind(it, kinds));
        let library = of(&["lib", "rlib", "dylib", "cdylib", "staticlib", "proc-macro"]).next();
        let mut others = Vec::new();
        if self.is_asked {
            others.extend(of(&["bin"]));
            if self.has_tests {
                others.extend(of(&["test", "example", "bench"]));
            }
        }
        (library, others)
    }
}

fn is_of_kind(target: &Target, kinds: &[&str]) -> bool {
    target.kind.iter().any(|it| kinds.contains(&&**it))
}

/// The edition of a crate of the standard library.
fn edition_of(manifest: &Path) -> String {
    let text = std::fs::read_to_string(manifest).unwrap_or_default();
    let line = text.lines().find_map(|it| it.trim().strip_prefix("edition"));
    let edition = line.map(|it| it.trim_matches([' ', '=', '"'].as_slice()));
    match edition {
        Some(it @ ("2015" | "2018" | "2021" | "2024")) => it.to_owned(),
        _ => "2021".to_owned(),
    }
}
