//! States, as a type: a buffer of a wrong length cannot be lent.

use std::fmt;

use crate::{HAND_STATE_LENGTH, MAX_ITEMS, STATE_LENGTH};

/// Which items are in, and which settings are on at each: the last state of a run.
///
/// It holds the [`STATE_LENGTH`] bytes that the library writes. Items and settings are numbered from 0; asked of an item from 32 on or a
/// setting from 16 on, it says out and off.
///
/// ```
/// // Sheet C: three items of two settings, each pair unequal. No rule holds.
/// let sheet = [1, 0, 0, 0, 29, 3, 0, 3, 2, 2, 2, 0, 1, 0, 2, 0, 1, 0, 2, 0, 2, 0, 1, 1, 2, 0, 2, 0, 1];
/// let state = zomuwedli::run(&sheet, &mut [0; zomuwedli::MAX_TRACE])?.state;
/// for item in state.items() {
///     let settings: Vec<u8> = state.settings(item).collect();
///     assert_eq!(settings, [0, 1]);
/// }
/// # Ok::<(), zomuwedli::Refusal>(())
/// ```
#[must_use]
#[derive(Clone, PartialEq, Eq, Hash)]
pub struct State {
    pub(crate) bytes: [u8; STATE_LENGTH],
}

impl State {
    /// No item in and no setting on: what is lent for the library to write over.
    pub(crate) const EMPTY: State = State { bytes: [0; STATE_LENGTH] };

    /// The state that these bytes hold: 4 for the items in, bit i for item i, then 2 for each of 32 items, bit c for setting c,
    /// big-endian. Any bytes are a state, whether or not it fits a sheet.
    ///
    /// ```
    /// use zomuwedli::{State, STATE_LENGTH};
    ///
    /// let mut bytes = [0; STATE_LENGTH];
    /// bytes[3] = 0b100; // item 2 is in
    /// bytes[4 + 2 * 2 + 1] = 0b11; // its settings 0 and 1 are on
    /// let state = State::from_bytes(bytes);
    /// assert!(state.is_on(2, 0) && state.is_on(2, 1) && !state.is_on(2, 2));
    /// assert_eq!(state.count_items(), 1);
    /// ```
    pub const fn from_bytes(bytes: [u8; STATE_LENGTH]) -> State {
        State { bytes }
    }

    /// The bytes that hold this state.
    ///
    /// ```
    /// let bytes = [7; zomuwedli::STATE_LENGTH];
    /// assert_eq!(zomuwedli::State::from_bytes(bytes).to_bytes(), bytes);
    /// ```
    #[must_use]
    pub const fn to_bytes(&self) -> [u8; STATE_LENGTH] {
        self.bytes
    }

    /// The items in, as bits: the bit worth 2^i is set when item i is in.
    ///
    /// ```
    /// let sheet = [1, 0, 0, 0, 16, 2, 0, 1, 2, 2, 0, 1, 0, 2, 0, 1];
    /// assert_eq!(zomuwedli::start(&sheet)?.state().items_in(), 0b11);
    /// # Ok::<(), zomuwedli::Refusal>(())
    /// ```
    #[must_use]
    pub fn items_in(&self) -> u32 {
        u32::from_be_bytes([self.bytes[0], self.bytes[1], self.bytes[2], self.bytes[3]])
    }

    /// The settings on at an item, as bits: the bit worth 2^c is set when setting c is on.
    ///
    /// ```
    /// let sheet = [1, 0, 0, 0, 16, 2, 0, 1, 2, 2, 0, 1, 0, 2, 0, 1];
    /// let state = zomuwedli::start(&sheet)?;
    /// assert_eq!(state.state().settings_on(1), 0b11);
    /// assert_eq!(state.state().settings_on(2), 0);
    /// # Ok::<(), zomuwedli::Refusal>(())
    /// ```
    #[must_use]
    pub fn settings_on(&self, item: u8) -> u16 {
        let place = 4 + 2 * usize::from(item);
        self.bytes.get(place..place + 2).map_or(0, |set| u16::from_be_bytes([set[0], set[1]]))
    }

    /// Whether the item is in.
    ///
    /// ```
    /// let sheet = [1, 0, 0, 0, 16, 2, 0, 1, 2, 2, 0, 1, 0, 2, 0, 1];
    /// let start = zomuwedli::start(&sheet)?;
    /// assert!(start.state().is_in(1));
    /// assert!(!start.state().is_in(2));
    /// # Ok::<(), zomuwedli::Refusal>(())
    /// ```
    #[must_use]
    pub fn is_in(&self, item: u8) -> bool {
        has(self.items_in(), item)
    }

    /// Whether the setting is on at the item.
    ///
    /// ```
    /// let sheet = [1, 0, 0, 0, 16, 2, 0, 1, 2, 2, 0, 1, 0, 2, 0, 1];
    /// let start = zomuwedli::start(&sheet)?;
    /// assert!(start.state().is_on(0, 1));
    /// assert!(!start.state().is_on(0, 2));
    /// # Ok::<(), zomuwedli::Refusal>(())
    /// ```
    #[must_use]
    pub fn is_on(&self, item: u8, setting: u8) -> bool {
        has(u32::from(self.settings_on(item)), setting)
    }

    /// The items in, the lowest first.
    ///
    /// ```
    /// let sheet = [1, 0, 0, 0, 16, 2, 0, 1, 2, 2, 0, 1, 0, 2, 0, 1];
    /// assert_eq!(zomuwedli::start(&sheet)?.state().items().collect::<Vec<u8>>(), [0, 1]);
    /// # Ok::<(), zomuwedli::Refusal>(())
    /// ```
    pub fn items(&self) -> impl Iterator<Item = u8> {
        members(self.items_in())
    }

    /// The settings on at an item, the lowest first.
    ///
    /// ```
    /// let sheet = [1, 0, 0, 0, 16, 2, 0, 1, 2, 2, 0, 1, 0, 2, 0, 1];
    /// assert_eq!(zomuwedli::start(&sheet)?.state().settings(0).collect::<Vec<u8>>(), [0, 1]);
    /// # Ok::<(), zomuwedli::Refusal>(())
    /// ```
    pub fn settings(&self, item: u8) -> impl Iterator<Item = u8> {
        members(u32::from(self.settings_on(item)))
    }

    /// How many items are in.
    ///
    /// ```
    /// let sheet = [1, 0, 0, 0, 16, 2, 0, 1, 2, 2, 0, 1, 0, 2, 0, 1];
    /// assert_eq!(zomuwedli::start(&sheet)?.state().count_items(), 2);
    /// # Ok::<(), zomuwedli::Refusal>(())
    /// ```
    #[must_use]
    pub fn count_items(&self) -> usize {
        self.items().count()
    }

    /// How many settings are on at the items in.
    ///
    /// ```
    /// let sheet = [1, 0, 0, 0, 16, 2, 0, 1, 2, 2, 0, 1, 0, 2, 0, 1];
    /// assert_eq!(zomuwedli::start(&sheet)?.state().count_settings(), 4);
    /// # Ok::<(), zomuwedli::Refusal>(())
    /// ```
    #[must_use]
    pub fn count_settings(&self) -> usize {
        self.items().map(|item| self.settings(item).count()).sum()
    }
}

/// The items in, and the settings on at every item that has one, in or out: a state that fits no sheet shows what it says.
impl fmt::Debug for State {
    fn fmt(&self, f: &mut fmt::Formatter<'_>) -> fmt::Result {
        let on = (0..MAX_ITEMS as u8).filter(|&item| self.settings_on(item) != 0);
        let on: std::collections::BTreeMap<u8, Vec<u8>> = on.map(|item| (item, self.settings(item).collect())).collect();
        f.debug_struct("State").field("items_in", &self.items().collect::<Vec<u8>>()).field("settings_on", &on).finish()
    }
}

/// The state of taking out by hand: [`start`](crate::start) makes one, and [`hand_call`](crate::hand_call) changes it.
///
/// A type of its own, so that a run's state is not taken for one by mistake; where that is meant, it is said by `HandState::from`.
///
/// ```
/// use zomuwedli::{hand_call, run, HandState, Refusal, MAX_TRACE};
///
/// // Sheet C: no rule holds, and so none by hand.
/// let sheet = [1, 0, 0, 0, 29, 3, 0, 3, 2, 2, 2, 0, 1, 0, 2, 0, 1, 0, 2, 0, 2, 0, 1, 1, 2, 0, 2, 0, 1];
/// let mut by_hand = HandState::from(run(&sheet, &mut [0; MAX_TRACE])?.state);
/// assert_eq!(hand_call(&sheet, &mut by_hand, 0), Err(Refusal::NoSnake));
/// # Ok::<(), Refusal>(())
/// ```
#[must_use]
#[derive(Clone, PartialEq, Eq, Hash, Debug)]
pub struct HandState {
    pub(crate) state: State,
}

impl HandState {
    /// The hand state that these bytes hold; their layout is that of [`State::from_bytes`].
    ///
    /// ```
    /// use zomuwedli::{hand_call, HandState, Refusal, HAND_STATE_LENGTH};
    ///
    /// // No item is in: the state fits every sheet, and has no item to take out.
    /// let sheet = [1, 0, 0, 0, 9, 1, 0, 0, 2];
    /// let mut empty = HandState::from_bytes([0; HAND_STATE_LENGTH]);
    /// assert_eq!(hand_call(&sheet, &mut empty, 0), Err(Refusal::ItemNotIn));
    /// ```
    pub const fn from_bytes(bytes: [u8; HAND_STATE_LENGTH]) -> HandState {
        HandState { state: State::from_bytes(bytes) }
    }

    /// The bytes that hold this hand state.
    ///
    /// ```
    /// use zomuwedli::{start, HandState};
    ///
    /// let state = start(&[1, 0, 0, 0, 9, 1, 0, 0, 2])?;
    /// assert_eq!(HandState::from_bytes(state.to_bytes()), state);
    /// # Ok::<(), zomuwedli::Refusal>(())
    /// ```
    #[must_use]
    pub const fn to_bytes(&self) -> [u8; HAND_STATE_LENGTH] {
        self.state.to_bytes()
    }

    /// What it says: which items are in, and which settings are on.
    ///
    /// ```
    /// let start = zomuwedli::start(&[1, 0, 0, 0, 9, 1, 0, 0, 2])?;
    /// assert!(start.state().is_on(0, 1));
    /// # Ok::<(), zomuwedli::Refusal>(())
    /// ```
    pub const fn state(&self) -> &State {
        &self.state
    }
}

impl From<State> for HandState {
    fn from(state: State) -> HandState {
        HandState { state }
    }
}

fn has(set: u32, member: u8) -> bool {
    member < 32 && set >> member & 1 == 1
}

/// The members of a set, rising.
fn members(set: u32) -> impl Iterator<Item = u8> {
    (0..32).filter(move |&member| has(set, member))
}
