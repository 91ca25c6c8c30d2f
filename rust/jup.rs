//! A client of the protocol of docs/WIRE.md, without sockets, threads or waiting, over the proved library of c/jup.h.
//!
//! `./libjup` builds the library and prints how to link it. A refused call returns a [`Fault`], whose number says why.

use std::ffi::c_void;
use std::ops::{Deref, DerefMut};
use std::ptr;
use std::time::Duration;

/// The most bytes of a label.
pub const MOST_LABEL: usize = 48;

/// The most commands of an edit.
pub const MOST_COMMANDS: usize = 32;

#[repr(C)]
struct Handle {
    inside: *mut c_void,
}

/// A command. The functions [`Command::insert_char`] and the like make one.
#[repr(C)]
#[derive(Clone, Copy, Debug)]
pub struct Command {
    kind: u32,
    win: u16,
    wid: u16,
    place: u32,
    value: i32,
    label_len: u32,
    label: [u8; MOST_LABEL],
}

/// A widget without its items.
#[repr(C)]
#[derive(Clone, Copy, Debug, Default, PartialEq, Eq)]
pub struct Widget {
    pub win: u16,
    pub wid: u16,
    /// 1 of a text, 2 of a list, 3 of a toggle, 4 of a slider.
    pub kind: u32,
    pub items: u32,
    pub lo: i32,
    pub hi: i32,
    pub value: i32,
}

/// A change of the board. `place` counts in the text or list as the changes before this one left it.
#[repr(C)]
#[derive(Clone, Copy, Debug)]
pub struct Change {
    /// As of a command, and 0 if the board stayed as it was.
    pub kind: u32,
    pub win: u16,
    pub wid: u16,
    pub place: u32,
    pub site: u32,
    pub number: u32,
    pub value: i32,
    label_len: u32,
    label: [u8; MOST_LABEL],
}

/// The number of a fault, as docs/WIRE.md and c/jup.h list them.
#[derive(Clone, Copy, Debug, PartialEq, Eq)]
pub struct Fault(pub u32);

impl Fault {
    /// This connection does not carry the link: close it, and connect again.
    pub const CUT: Fault = Fault(95);
}

/// What a server said as it opened a link that outlives its connections.
#[derive(Clone, Debug, PartialEq, Eq)]
pub struct Terms {
    /// What names the link. Its holder can carry it.
    pub token: String,
    /// For how long the server lets the link wait without a connection.
    pub waits: Duration,
    /// Whether what the server has confirmed outlives the server.
    pub is_kept: bool,
}

/// How far a session is.
#[derive(Clone, Copy, Debug, PartialEq, Eq)]
pub enum Stage {
    Greeting,
    Opening,
    Open,
    Over(Fault),
}

impl std::fmt::Display for Fault {
    fn fmt(&self, out: &mut std::fmt::Formatter<'_>) -> std::fmt::Result {
        write!(out, "fault {}", self.0)
    }
}

impl std::error::Error for Fault {}

unsafe extern "C" {
    fn jup_open(client: *mut Handle, watch: u32) -> u32;
    fn jup_close(client: *mut Handle);
    fn jup_stage(client: *mut Handle, fault: *mut u32) -> u32;
    fn jup_feed(client: *mut Handle, bytes: *const u8, len: usize) -> u32;
    fn jup_waiting(client: *mut Handle) -> usize;
    fn jup_take(client: *mut Handle, to: *mut u8, len: usize) -> usize;
    fn jup_edit(client: *mut Handle, commands: *const Command, count: usize) -> u32;
    fn jup_ping(client: *mut Handle) -> u32;
    fn jup_is_synced(client: *mut Handle) -> u32;
    fn jup_bye(client: *mut Handle) -> u32;
    fn jup_ask(client: *mut Handle, line: *const u8, len: usize, to: *mut u8, to_len: usize, told: *mut usize) -> u32;
    fn jup_next_change(client: *mut Handle, out: *mut Change) -> u32;
    fn jup_site(client: *mut Handle, number: *mut u32, backlog: *mut u32) -> u32;
    fn jup_window(client: *mut Handle, index: usize, win: *mut u16, widgets: *mut usize) -> u32;
    fn jup_widget_at(client: *mut Handle, window: usize, index: usize, out: *mut Widget) -> u32;
    fn jup_text(client: *mut Handle, win: u16, wid: u16, place: u32, to: *mut u32, len: usize, copied: *mut usize) -> u32;
    fn jup_label(client: *mut Handle, win: u16, wid: u16, place: u32, to: *mut u8, to_len: usize, len: *mut usize) -> u32;
    fn jup_open_lasting(client: *mut Handle, watch: u32) -> u32;
    fn jup_cut(client: *mut Handle) -> u32;
    fn jup_resume(client: *mut Handle) -> u32;
    fn jup_elapse(client: *mut Handle, seconds: u32) -> u32;
    fn jup_token(client: *mut Handle, to: *mut u8, len: usize, seconds: *mut u32, kept: *mut u32) -> u32;
    fn jup_arrived(client: *mut Handle, edits: *mut u32) -> u32;
}

fn check(number: u32) -> Result<(), Fault> {
    if number == 0 { Ok(()) } else { Err(Fault(number)) }
}

impl Command {
    fn at(kind: u32, win: u16, wid: u16, place: u32) -> Command {
        Command { kind, win, wid, place, value: 0, label_len: 0, label: [0; MOST_LABEL] }
    }

    fn with_label(self, text: &str) -> Command {
        let mut label = [0; MOST_LABEL];
        let count = text.len().min(MOST_LABEL);
        label[..count].copy_from_slice(&text.as_bytes()[..count]);
        // The library refuses a label that is too long by its length.
        Command { label_len: u32::try_from(text.len()).unwrap_or(u32::MAX), label, ..self }
    }

    /// Inserts a character into a text.
    pub fn insert_char(win: u16, wid: u16, place: u32, value: char) -> Command {
        Command { value: value as i32, ..Command::at(1, win, wid, place) }
    }

    /// Inserts an item into a list. A label has 1 to 48 bytes, each from a space to `~`.
    pub fn insert_label(win: u16, wid: u16, place: u32, label: &str) -> Command {
        Command::at(2, win, wid, place).with_label(label)
    }

    /// Deletes a character or an item.
    pub fn delete(win: u16, wid: u16, place: u32) -> Command {
        Command::at(3, win, wid, place)
    }

    /// Gives an item of a list another label.
    pub fn relabel(win: u16, wid: u16, place: u32, label: &str) -> Command {
        Command::at(4, win, wid, place).with_label(label)
    }

    /// Sets a toggle.
    pub fn set_toggle(win: u16, wid: u16, is_on: bool) -> Command {
        Command { value: i32::from(is_on), ..Command::at(5, win, wid, 0) }
    }

    /// Sets a slider.
    pub fn set_slider(win: u16, wid: u16, value: i32) -> Command {
        Command { value, ..Command::at(6, win, wid, 0) }
    }
}

impl Change {
    fn none() -> Change {
        Change { kind: 0, win: 0, wid: 0, place: 0, site: 0, number: 0, value: 0, label_len: 0, label: [0; MOST_LABEL] }
    }

    /// The label of an item of a list.
    pub fn label(&self) -> &str {
        std::str::from_utf8(&self.label[..(self.label_len as usize).min(MOST_LABEL)]).unwrap_or("")
    }
}

/// A client of one session. It is freed when it is dropped.
pub struct Client(Handle);

// A client takes one call at a time, which `&mut` sees to, and is bound to no thread.
unsafe impl Send for Client {}

impl Client {
    /// Opens a client, whose greeting waits to be sent. Only if it is watched does it keep changes for [`Client::next_change`].
    pub fn open(is_watched: bool) -> Result<Client, Fault> {
        let mut client = Client(Handle { inside: ptr::null_mut() });
        check(unsafe { jup_open(&mut client.0, u32::from(is_watched)) })?;
        Ok(client)
    }

    /// How far the session is.
    pub fn stage(&mut self) -> Stage {
        let mut fault = 0;
        match unsafe { jup_stage(&mut self.0, &mut fault) } {
            0 => Stage::Greeting,
            1 => Stage::Opening,
            2 => Stage::Open,
            _ => Stage::Over(Fault(fault)),
        }
    }

    /// Takes bytes that the server sent, cut anywhere. A fault ends the session.
    pub fn feed(&mut self, bytes: &[u8]) -> Result<(), Fault> {
        check(unsafe { jup_feed(&mut self.0, bytes.as_ptr(), bytes.len()) })
    }

    /// All bytes that wait to be sent. Each comes out once.
    pub fn take(&mut self) -> Vec<u8> {
        let (mut bytes, mut piece) = (Vec::new(), [0; 4096]);
        loop {
            let count = unsafe { jup_take(&mut self.0, piece.as_mut_ptr(), piece.len()) };
            if count == 0 {
                return bytes;
            }
            bytes.extend_from_slice(&piece[..count]);
        }
    }

    /// Whether bytes wait to be sent.
    pub fn is_waiting(&mut self) -> bool {
        unsafe { jup_waiting(&mut self.0) > 0 }
    }

    /// Makes one edit of 1 to 32 commands, each of the board after those before it. If one is refused, nothing changes.
    pub fn edit(&mut self, commands: &[Command]) -> Result<(), Fault> {
        check(unsafe { jup_edit(&mut self.0, commands.as_ptr(), commands.len()) })
    }

    /// Asks the server for all that it has.
    pub fn ping(&mut self) -> Result<(), Fault> {
        check(unsafe { jup_ping(&mut self.0) })
    }

    /// Whether the server has answered the last ping.
    pub fn is_synced(&mut self) -> bool {
        unsafe { jup_is_synced(&mut self.0) != 0 }
    }

    /// Says goodbye. The server then ends the session.
    pub fn bye(&mut self) -> Result<(), Fault> {
        check(unsafe { jup_bye(&mut self.0) })
    }

    /// Does what a line asks for, as the program `jup` takes it, and returns what that prints.
    pub fn ask(&mut self, line: &[u8]) -> Result<Vec<u8>, Fault> {
        let mut text = vec![0; 65_536];
        let told = self.ask_into(line, &mut text)?;
        if told > text.len() {
            // Only `show` tells so much, and it changes nothing.
            text.resize(told, 0);
            self.ask_into(line, &mut text)?;
        }
        text.truncate(told);
        Ok(text)
    }

    fn ask_into(&mut self, line: &[u8], to: &mut [u8]) -> Result<usize, Fault> {
        let mut told = 0;
        check(unsafe { jup_ask(&mut self.0, line.as_ptr(), line.len(), to.as_mut_ptr(), to.len(), &mut told) })?;
        Ok(told)
    }

    /// The oldest change that was not told. A copy of the board that takes each in turn is the board once none is left.
    pub fn next_change(&mut self) -> Option<Change> {
        let mut change = Change::none();
        (unsafe { jup_next_change(&mut self.0, &mut change) } != 0).then_some(change)
    }

    /// The number of the client's site, and how many of its edits the server has not acknowledged.
    pub fn site(&mut self) -> Result<(u32, u32), Fault> {
        let (mut number, mut backlog) = (0, 0);
        check(unsafe { jup_site(&mut self.0, &mut number, &mut backlog) })?;
        Ok((number, backlog))
    }

    /// The widgets of all windows, ascending by the ids of windows and widgets.
    pub fn widgets(&mut self) -> Result<Vec<Widget>, Fault> {
        let (mut all, mut win, mut count, mut window) = (Vec::new(), 0, 0, 0);
        while unsafe { jup_window(&mut self.0, window, &mut win, &mut count) } == 0 {
            for index in 0..count {
                let mut widget = Widget::default();
                check(unsafe { jup_widget_at(&mut self.0, window, index, &mut widget) })?;
                all.push(widget);
            }
            window += 1;
        }
        Ok(all)
    }

    /// The widget with these ids.
    pub fn widget(&mut self, win: u16, wid: u16) -> Result<Widget, Fault> {
        let found = self.widgets()?.into_iter().find(|it| (it.win, it.wid) == (win, wid));
        found.ok_or(Fault(2))
    }

    /// The characters of a text.
    pub fn text(&mut self, win: u16, wid: u16) -> Result<String, Fault> {
        let mut values = vec![0u32; self.widget(win, wid)?.items as usize];
        let mut count = 0;
        check(unsafe { jup_text(&mut self.0, win, wid, 0, values.as_mut_ptr(), values.len(), &mut count) })?;
        Ok(values[..count].iter().filter_map(|value| char::from_u32(*value)).collect())
    }

    /// The label at a place of a list.
    pub fn label(&mut self, win: u16, wid: u16, place: u32) -> Result<String, Fault> {
        let (mut bytes, mut len) = ([0u8; MOST_LABEL], 0);
        check(unsafe { jup_label(&mut self.0, win, wid, place, bytes.as_mut_ptr(), bytes.len(), &mut len) })?;
        Ok(String::from_utf8_lossy(&bytes[..len.min(MOST_LABEL)]).into_owned())
    }
}

impl Drop for Client {
    fn drop(&mut self) {
        unsafe { jup_close(&mut self.0) }
    }
}

/// A client of a link that outlives its connections. It has all calls of a [`Client`], and its user edits on while no connection carries the link. What
/// [`Client::take`] returns is for the present connection.
pub struct LastingClient(Client);

impl LastingClient {
    /// Opens a client, whose first line waits to be sent. Only if it is watched does it keep changes.
    pub fn open(is_watched: bool) -> Result<LastingClient, Fault> {
        let mut client = Client(Handle { inside: ptr::null_mut() });
        check(unsafe { jup_open_lasting(&mut client.0, u32::from(is_watched)) })?;
        Ok(LastingClient(client))
    }

    /// The connection broke. What was taken and did not arrive comes again on the next one.
    pub fn cut(&mut self) {
        unsafe { jup_cut(&mut self.0.0) };
    }

    /// Asks a new connection to carry the link: the line for that waits to be sent.
    pub fn resume(&mut self) -> Result<(), Fault> {
        check(unsafe { jup_resume(&mut self.0.0) })
    }

    /// So many seconds passed since this was last told. Returns whether no byte has come for 90: then close the connection, and call
    /// [`LastingClient::cut`].
    pub fn elapse(&mut self, seconds: u32) -> bool {
        unsafe { jup_elapse(&mut self.0.0, seconds) != 0 }
    }

    /// What the server said as it opened the link, once it has.
    pub fn terms(&mut self) -> Option<Terms> {
        let (mut token, mut seconds, mut kept) = ([0; 32], 0, 0);
        check(unsafe { jup_token(&mut self.0.0, token.as_mut_ptr(), token.len(), &mut seconds, &mut kept) }).ok()?;
        Some(Terms { token: String::from_utf8_lossy(&token).into_owned(), waits: Duration::from_secs(seconds.into()), is_kept: kept != 0 })
    }

    /// How many of its edits had their effect, once the link is over and the server has said so. They are the first that it made.
    pub fn arrived(&mut self) -> Option<u32> {
        let mut edits = 0;
        check(unsafe { jup_arrived(&mut self.0.0, &mut edits) }).ok()?;
        Some(edits)
    }
}

impl Deref for LastingClient {
    type Target = Client;

    fn deref(&self) -> &Client {
        &self.0
    }
}

impl DerefMut for LastingClient {
    fn deref_mut(&mut self) -> &mut Client {
        &mut self.0
    }
}
