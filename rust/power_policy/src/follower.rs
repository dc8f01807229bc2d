//! The desk's follower, as its image and the calls on it.

use crate::{
    Consumer, Error, FOLLOWER_IMAGE, PAGE, Shown, Tracked, ffi,
    reply::{consumer, done, page, shown, tracked},
};

/// The desk's follower between calls, as its image.
///
/// ```
/// use power_policy::*;
///
/// let mut follower = Follower::start()?;
/// assert_eq!(follower.shown()?, Shown::Lost);
///
/// // A full picture of event 0, and the packet of event 1: port 1 consumes 20 V at 3 A.
/// follower.take(&[2, 0, 0, 0, 0, 0])?;
/// follower.take(&[1, 1, 0, 2, 1, 2, 1, 0xA0, 0x9C, 0x01, 0xB8, 0x17, 2])?;
/// assert_eq!(follower.shown()?, Shown::Level(Figures { number: 1, unconstrained: false, available: 0 }));
/// let consumer = follower.consumer()?.unwrap();
/// assert_eq!((consumer.port, consumer.capability.capability.max_power_mw()), (1, 60000));
/// # Ok::<(), Error>(())
/// ```
#[derive(Clone, Copy, Debug, PartialEq, Eq)]
pub struct Follower([u8; FOLLOWER_IMAGE]);

impl Follower {
    /// A fresh follower: lost, with floor 0. It is not refused.
    pub fn start() -> Result<Self, Error> {
        let mut follower = Self([0; FOLLOWER_IMAGE]);
        done(ffi::follower_start(&mut follower.0)).map(|()| follower)
    }

    /// The follower whose [`image`](Self::image) these bytes are, which were kept over a restart. Refused:
    /// [`Image`](crate::Refusal::Image), bytes that no follower is written as, by their content or by their length.
    ///
    /// ```
    /// use power_policy::{Error, Follower, Refusal};
    ///
    /// let follower = Follower::start()?;
    /// let kept = *follower.image();
    /// assert_eq!(Follower::from_image(&kept), Ok(follower));
    /// assert_eq!(Follower::from_image(&[]), Err(Error::Refused(Refusal::Image)));
    /// # Ok::<(), Error>(())
    /// ```
    pub fn from_image(image: &[u8]) -> Result<Self, Error> {
        let result = ffi::follower_shown(image);
        shown(result)?;
        image.try_into().map(Self).or(Err(Error::Unknown(result)))
    }

    /// The bytes to keep over a restart (docs/STATE.md).
    pub fn image(&self) -> &[u8; FOLLOWER_IMAGE] {
        &self.0
    }

    /// Takes a packet or picture; one that is held or dropped is taken too. Refused: [`CutShort`](crate::Refusal::CutShort) to
    /// [`LeftOver`](crate::Refusal::LeftOver), bytes that are no packet.
    ///
    /// ```
    /// use power_policy::{Error, Follower, Refusal};
    ///
    /// let mut follower = Follower::start()?;
    /// assert_eq!(follower.take(&[2, 0]), Err(Error::Refused(Refusal::CutShort)));
    /// # Ok::<(), Error>(())
    /// ```
    pub fn take(&mut self, packet: &[u8]) -> Result<(), Error> {
        done(ffi::follower_take(&mut self.0, packet))
    }

    /// Lost, level or waiting, with the figures shown. It is not refused.
    pub fn shown(&self) -> Result<Shown, Error> {
        shown(ffi::follower_shown(&self.0))
    }

    /// The consumer shown, none if lost. It is not refused.
    pub fn consumer(&self) -> Result<Option<Consumer>, Error> {
        consumer(ffi::follower_consumer(&self.0))
    }

    /// The tracked ports shown, none if lost. It is not refused.
    pub fn tracked(&self) -> Result<Tracked, Error> {
        tracked(ffi::follower_tracked(&self.0))
    }

    /// Writes the page of what is shown: six lines of text, each a name left in 20 columns, a figure right in 20 and a newline, with a hyphen
    /// for what is not there. Lost, all but the state is a hyphen. It is not refused.
    ///
    /// ```
    /// use power_policy::*;
    ///
    /// let mut follower = Follower::start()?;
    /// follower.take(&[2, 7, 1, 1, 0xA0, 0x9C, 0x01, 0xB8, 0x17, 2, 0, 0, 2, 4, 12])?;
    /// let mut page = [0; PAGE];
    /// follower.write_page(&mut page)?;
    /// assert_eq!(
    ///     core::str::from_utf8(&page),
    ///     Ok("\
    /// number                                 7
    /// state                              level
    /// port                                   1
    /// millivolts                         20000
    /// milliamps                           3000
    /// tracked ports                       4,12
    /// ")
    /// );
    /// # Ok::<(), Error>(())
    /// ```
    pub fn write_page(&self, buffer: &mut [u8; PAGE]) -> Result<(), Error> {
        page(ffi::follower_write_page(&self.0, buffer))
    }
}
