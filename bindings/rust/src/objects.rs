//! Data objects in bytes: all of them, the one at a path, and the start of one.

use crate::error::{codes, shown};
use crate::raw::{self, Library};
use crate::wiped::{room_for, wipe};
use alloc::vec::{self, Vec};
use core::{fmt, iter, slice};

/// The deepest level of a list of objects.
pub const LEVELS_LIMIT: u8 = 16;

codes! {
    /// What is wrong with an object.
    Reason {
        /// The list ends inside a tag.
        TagCut = -40, "tag cut";
        /// No tag of one to three bytes starts here.
        TagForm = -41, "tag form";
        /// The list ends inside a length, or before it.
        LengthCut = -42, "length cut";
        /// A length starts with `80`, or with a byte above `82`.
        LengthForm = -43, "length form";
        /// The value passes the end of the list.
        ValueCut = -44, "value cut";
        /// The list is below the deepest level, 16.
        TooDeep = -45, "too deep";
    }
}

/// Why [`Objects::over`], [`Object::children`], [`find`] or [`encode`] has no result.
#[derive(Clone, Copy, Debug, PartialEq, Eq, Hash)]
#[non_exhaustive]
pub enum ObjectsError {
    /// Memory ran out.
    Memory,
    /// A step of the path is not a tag of one to three bytes, or the tag of [`encode`] is not.
    NoTag,
    /// The value has more than 65,535 bytes. Only [`encode`] returns this.
    TooLong,
    /// The bytes are not a list of objects. This is their first fault, from the left.
    #[non_exhaustive]
    Fault {
        /// The place of the first byte that starts no object, counted in bytes from 0. A template
        /// around it is not the fault, and nothing inside a cut template counts. With [`encode`]
        /// it counts from the start of the object to write.
        place: usize,
        /// What is wrong there.
        reason: Reason,
    },
}

impl ObjectsError {
    fn of(code: i32, place: usize) -> ObjectsError {
        let reason = Reason::of(code);
        ObjectsError::Fault { place, reason }
    }
}

impl fmt::Display for ObjectsError {
    fn fmt(&self, f: &mut fmt::Formatter<'_>) -> fmt::Result {
        match self {
            ObjectsError::Memory => f.write_str("out of memory"),
            ObjectsError::NoTag => f.write_str("not a tag"),
            ObjectsError::TooLong => f.write_str("value too long"),
            ObjectsError::Fault { place, reason } => write!(f, "{reason} at {place}"),
        }
    }
}

/// A data object of a list. `Debug` leaves its value out.
#[derive(Clone, Copy, PartialEq, Eq, Hash)]
#[non_exhaustive]
pub struct Object<'a> {
    /// The tag as a number: `0x50`, `0x5F20`, `0x9F8101`.
    pub tag: u32,
    /// 1 for an object of the list itself, one more for each template around it, up to
    /// [`LEVELS_LIMIT`].
    pub level: u8,
    /// Whether the value is a list of objects.
    pub is_constructed: bool,
    /// The place of the tag's first byte, counted in bytes from 0.
    pub place: usize,
    /// The number of bytes of tag, length and value together.
    pub size: usize,
    /// The value.
    pub value: &'a [u8],
}

shown! { Debug for Object<'_>: it => "Object({:X}, {} bytes)", it.tag, it.size }

impl<'a> Object<'a> {
    /// The object that the library has found in these bytes.
    fn of(told: &raw::Object, bytes: &'a [u8]) -> Object<'a> {
        Object {
            tag: told.tag,
            level: told.level,
            is_constructed: told.constructed != 0,
            place: told.place.0,
            size: told.size.0,
            value: &bytes[told.value.0..][..told.length.0],
        }
    }

    /// Lists the objects one level below, with places and levels in the same list. It is empty if
    /// the value is not a list of objects.
    ///
    /// # Errors
    ///
    /// - [`ObjectsError::Memory`]: it ran out.
    pub fn children(&self) -> Result<impl Iterator<Item = Object<'a>>, ObjectsError> {
        let inside = if self.is_constructed { self.value } else { &[] };
        let (above, start) = (self.level, self.place + self.size - self.value.len());
        let direct = Objects::over(inside)?.filter(|it| it.level == 1);
        Ok(direct.map(move |it| Object {
            level: above + 1,
            place: start + it.place,
            ..it
        }))
    }
}

/// All objects of all levels of a list, in the order of their first bytes (EMV Book 3, Annex B). A
/// template comes before the objects in it. Padding, `00` before, between and after objects, is
/// skipped.
///
/// ```
/// use galliumtoad::Objects;
///
/// let fci = [0x6F, 0x04, 0x84, 0x02, 0xA0, 0x00];
/// let tags: Vec<u32> = Objects::over(&fci)?.map(|object| object.tag).collect();
/// assert_eq!(tags, [0x6F, 0x84]);
/// # Ok::<(), galliumtoad::ObjectsError>(())
/// ```
#[derive(Clone)]
pub struct Objects<'a>(vec::IntoIter<Object<'a>>);

impl<'a> Objects<'a> {
    /// Checks all levels, and lists the objects. Each takes 40 bytes of memory, and 40 more during
    /// this call.
    ///
    /// # Errors
    ///
    /// - [`ObjectsError::Fault`]: the bytes are not a list of objects; this is their first fault.
    /// - [`ObjectsError::Memory`]: it ran out.
    pub fn over(bytes: &'a [u8]) -> Result<Objects<'a>, ObjectsError> {
        let count = list(bytes, &mut [])?;
        let mut told = room_for(count).ok_or(ObjectsError::Memory)?;
        let mut listed = Vec::new();
        let room = listed.try_reserve_exact(count);
        room.map_err(|_| ObjectsError::Memory)?;
        list(bytes, &mut told)?;
        listed.extend(told.iter().map(|it| Object::of(it, bytes)));
        Ok(Objects(listed.into_iter()))
    }

    /// Goes through the objects that are left, which stay.
    pub fn iter(&self) -> iter::Copied<slice::Iter<'_, Object<'a>>> {
        self.0.as_slice().iter().copied()
    }
}

impl<'l, 'a> IntoIterator for &'l Objects<'a> {
    type Item = Object<'a>;
    type IntoIter = iter::Copied<slice::Iter<'l, Object<'a>>>;

    fn into_iter(self) -> Self::IntoIter {
        self.iter()
    }
}

shown! { Debug for Objects<'_>: it => "Objects({} left)", it.len() }

/// Lists as many objects as there is room for, and returns how many there are.
fn list(bytes: &[u8], room: &mut [raw::Object]) -> Result<usize, ObjectsError> {
    let (mut count, mut place) = (0, 0);
    match Library::galliumtoad_objects(bytes, room, &mut count, &mut place) {
        raw::OK => Ok(count),
        fault => Err(ObjectsError::of(fault, place)),
    }
}

impl<'a> Iterator for Objects<'a> {
    type Item = Object<'a>;

    fn next(&mut self) -> Option<Object<'a>> {
        self.0.next()
    }

    fn size_hint(&self) -> (usize, Option<usize>) {
        self.0.size_hint()
    }
}

impl ExactSizeIterator for Objects<'_> {}

impl iter::FusedIterator for Objects<'_> {}

/// Finds the object at a path: the first one, in the order of the bytes, whose tags from level 1
/// down to its own are those of the path. `None` if there is no such object, or the path has no
/// steps.
///
/// ```
/// use galliumtoad::find;
///
/// let fci = [0x6F, 0x04, 0x84, 0x02, 0xA0, 0x00];
/// let name = find(&fci, &[0x6F, 0x84])?.expect("a name");
/// assert_eq!((name.place, name.value), (2, &fci[4..]));
/// assert_eq!(find(&fci, &[0x84])?, None);
/// # Ok::<(), galliumtoad::ObjectsError>(())
/// ```
///
/// # Errors
///
/// - [`ObjectsError::NoTag`]: a step is not a tag, whatever the bytes are.
/// - [`ObjectsError::Fault`]: the bytes are not a list of objects, wherever the path leads; this is
///   their first fault.
pub fn find<'a>(bytes: &'a [u8], path: &[u32]) -> Result<Option<Object<'a>>, ObjectsError> {
    let (mut told, mut place) = (raw::Object::default(), 0);
    match Library::galliumtoad_find(bytes, path, &mut told, &mut place) {
        raw::OK => Ok(Some(Object::of(&told, bytes))),
        raw::NOT_FOUND => Ok(None),
        raw::ARGUMENT => Err(ObjectsError::NoTag),
        fault => Err(ObjectsError::of(fault, place)),
    }
}

/// Returns the tag, and the length of a value in its shortest form, as an object begins: 2 to 6
/// bytes. `None` if no tag of one to three bytes has this number.
#[must_use]
pub fn head(tag: u32, length: u16) -> Option<Vec<u8>> {
    head_of(tag, length).map(|it| it.to_vec())
}

fn head_of(tag: u32, length: u16) -> Option<raw::Copied<6>> {
    raw::copied(|to, n| Library::galliumtoad_head(tag, length, to, n))
}

/// Writes one data object, with the length in its shortest form. The parts of its value come one
/// after another, so those of a template are objects. The caller wipes the bytes.
///
/// ```
/// use galliumtoad::encode;
///
/// let name = encode(0x5F20, &[b"JOE"])?;
/// let record = encode(0x70, &[&encode(0x50, &[b"VISA"])?, &name])?;
/// assert_eq!(record, b"\x70\x0C\x50\x04VISA\x5F\x20\x03JOE");
/// # Ok::<(), galliumtoad::ObjectsError>(())
/// ```
///
/// # Errors
///
/// - [`ObjectsError::NoTag`]: no tag of one to three bytes has this number.
/// - [`ObjectsError::TooLong`]: the value has more than 65,535 bytes.
/// - [`ObjectsError::Memory`]: it ran out.
/// - [`ObjectsError::Fault`]: the tag is that of a template, and the value is no list of objects,
///   or has more than 15 levels.
pub fn encode(tag: u32, value: &[&[u8]]) -> Result<Vec<u8>, ObjectsError> {
    let add = |sum: usize, part: &&[u8]| sum.saturating_add(part.len());
    let length = u16::try_from(value.iter().fold(0, add)).map_err(|_| ObjectsError::TooLong)?;
    let head = head_of(tag, length).ok_or(ObjectsError::NoTag)?;
    let mut bytes = Vec::new();
    let room = bytes.try_reserve_exact(head.len() + usize::from(length));
    room.map_err(|_| ObjectsError::Memory)?;
    bytes.extend_from_slice(&head);
    for part in value {
        bytes.extend_from_slice(part);
    }
    if let Err(fault) = list(&bytes, &mut []) {
        wipe(&mut bytes);
        return Err(fault);
    }
    Ok(bytes)
}
