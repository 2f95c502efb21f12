//! The proved desk, on the other side of a pipe (`../bridge.c` has the words).

use crate::desk::{Desk, ORDER};
use crate::request::Request;
use std::io::{BufReader, BufWriter, Read, Write};
use std::path::{Path, PathBuf};
use std::process::{Child, ChildStdin, ChildStdout, Command, Stdio};

/// The requests that the proved desk has learnt. The bridge has the list,
/// since it has to know which calls there are.
pub fn landed() -> Vec<u8> {
    let lines = include_str!("../../bridge.c").lines();
    let listed = lines.filter_map(|line| line.strip_prefix("#define LANDED_"));
    listed.map(|request| request.trim().parse().expect("the number of a request")).collect()
}

/// Whether the proved desk has learnt a request.
pub fn knows(request: u8) -> bool {
    landed().contains(&request)
}

/// The desk that knows the same requests as the proved one.
pub fn desk() -> Desk {
    Desk::knowing(&landed())
}

/// A folder of worked answers that the proved desk is asked.
pub struct Folder {
    pub path: PathBuf,
    /// The base, or a request.
    pub name: String,
    /// How many of the answers the proved desk has to give as they stand.
    pub held: Held,
}

/// Worked answers of request N are of the desk that knows N and those before it
/// in the order.
pub enum Held {
    /// All: the proved desk knows what that one does.
    Whole,
    /// At least so many: some of those requests have not landed.
    AtLeast(u64),
    /// None: the proved desk knows requests that come later.
    Older,
}

/// So many worked answers at least are of use where a request has landed before
/// one that stands before it.
const OF_USE: u64 = 60;

/// The folders of worked answers of the base and of each request that has
/// landed.
pub fn worked_folders() -> Vec<Folder> {
    let folder = Path::new(env!("CARGO_MANIFEST_DIR")).join("../vectors");
    let base = Folder { path: folder.clone(), name: String::from("base"), held: Held::Older };
    let in_order = ORDER.iter().take_while(|request| knows(**request)).count();
    let mut folders = vec![base];
    for (place, request) in ORDER.iter().enumerate().filter(|(_, request)| knows(**request)) {
        let name = format!("wish-{request:02}");
        let held = match Desk::up_to(*request) == desk() {
            true => Held::Whole,
            false if place < in_order => Held::Older,
            false => Held::AtLeast(OF_USE),
        };
        folders.push(Folder { path: folder.join(&name), name, held });
    }
    folders.retain(|folder| folder.path.exists());
    folders
}

/// The newest folder that has a file of worked answers, among those of requests
/// that landed in order.
pub fn worked_folder(file: &str) -> PathBuf {
    let in_order = |folder: &Folder| !matches!(folder.held, Held::AtLeast(_));
    let mut folders = worked_folders().into_iter().rev().filter(in_order);
    let newest = folders.find(|folder| folder.path.join(file).exists());
    newest.expect("the base has worked answers").path
}

/// The proved desk's process.
pub struct Proved {
    child: Child,
    to: Option<BufWriter<ChildStdin>>,
    from: BufReader<ChildStdout>,
}

impl Proved {
    /// Starts the bridge by its command.
    pub fn start(command: &[String]) -> Proved {
        let mut child = Command::new(&command[0])
            .args(&command[1..])
            .stdin(Stdio::piped())
            .stdout(Stdio::piped())
            .spawn()
            .expect("the bridge starts");
        let to = Some(BufWriter::new(child.stdin.take().expect("its input")));
        let from = BufReader::new(child.stdout.take().expect("its output"));
        Proved { child, to, from }
    }

    /// The number that comes back, and the lent bytes after the call.
    pub fn call(&mut self, request: &Request) -> (u32, Vec<u8>) {
        let to = self.to.as_mut().expect("the bridge is open");
        request.write(to).and_then(|()| to.flush()).expect("the bridge reads");
        let mut number = [0; 4];
        self.from.read_exact(&mut number).expect("the bridge answers");
        let mut lent = vec![0; request.lent()];
        self.from.read_exact(&mut lent).expect("the bridge hands back what was lent");
        (u32::from_le_bytes(number), lent)
    }

    /// Ends the bridge; true if it ended as it should.
    pub fn end(mut self) -> bool {
        drop(self.to.take());
        self.child.wait().is_ok_and(|status| status.success())
    }
}
