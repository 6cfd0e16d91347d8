//! What the calls do to the parts of any machine: tables, pools, maps, operands, and an entry dropped.
use crate::whole::{Entry, Mapping, Operand, Pool, State, Whole, PLACES};

/// "Zero means none and reads as value 0"; so does a number beyond the table.
pub fn look<T: Copy + Default>(table: &[T], number: u8) -> T {
    match number {
        0 => T::default(),
        _ => table.get(number as usize).copied().unwrap_or_default(),
    }
}

/// "Storing under it [zero] does nothing"; nor does it beyond the table.
pub fn put<T>(table: &mut [T], number: u8, content: T) {
    match table.get_mut(number as usize) {
        Some(place) if number != 0 => *place = content,
        _ => (),
    }
}

impl Pool {
    /// "Taking takes the head (zero from an empty pool, which stays)"; "the link of a number outside its pool is zero".
    pub fn take(&mut self) -> u8 {
        let taken = self.head;
        self.head = look(&self.link, taken);
        put(&mut self.link, taken, 0);
        taken
    }

    /// "Freeing puts at the head"; "freeing zero [...] does nothing".
    pub fn free(&mut self, number: u8) {
        if number != 0 {
            put(&mut self.link, number, self.head);
            self.head = number;
        }
    }
}

impl Operand {
    /// Whether it is waiting on this name or ready with it.
    fn is_on(self, wanted: u8) -> bool {
        match self {
            Operand::Zero => false,
            Operand::Waiting(name) | Operand::Ready(name, _) => name == wanted,
        }
    }

    /// The register to read, 0 for none.
    pub fn register(self) -> u8 {
        match self {
            Operand::Ready(_, register) => register,
            Operand::Zero | Operand::Waiting(_) => 0,
        }
    }

    pub fn is_waiting(self) -> bool {
        matches!(self, Operand::Waiting(_))
    }
}

impl Whole {
    /// The entries in the window; those past the count are none.
    pub fn window(&self) -> &[Entry] {
        &self.entries[..self.occupied()]
    }

    /// The count, at most the places that there are.
    pub fn occupied(&self) -> usize {
        (self.count as usize).min(PLACES)
    }

    /// "An operand is zero": of x0. "Otherwise operands come from the general map (ready if valid)."
    pub fn operand(&self, logical: u8) -> Operand {
        let Mapping {
            name,
            register,
            valid,
        } = look(&self.general, logical);
        match (logical, valid) {
            (0, _) => Operand::Zero,
            (_, true) => Operand::Ready(name, register),
            (_, false) => Operand::Waiting(name),
        }
    }

    /// "Operand values are read": 0 of a zero operand and of register 0.
    pub fn operand_value(&self, operand: Operand) -> u32 {
        look(&self.values, operand.register())
    }

    /// The register that an entry holds, 0 for none: "an entry holds a register if it is completed and the physical map gives
    /// its name one".
    pub fn held(&self, entry: &Entry) -> u8 {
        match entry.state {
            State::Completed => look(&self.physical, entry.name),
            State::Waiting | State::Issued => 0,
        }
    }

    /// The name goes back to its pool; "the physical map holds for each name its register, zero once the name is freed".
    pub fn free_name(&mut self, name: u8) {
        self.free_names.free(name);
        put(&mut self.physical, name, 0);
    }

    /// "In entries of every state": what becomes of each operand on this name.
    pub fn set_operands_on(&mut self, name: u8, becomes: Operand) {
        let occupied = self.occupied();
        for entry in &mut self.entries[..occupied] {
            for operand in [&mut entry.left, &mut entry.right] {
                if operand.is_on(name) {
                    *operand = becomes;
                }
            }
        }
    }

    /// What the general map gives this logical register, "if it still shows that name".
    pub fn set_mapping_if(&mut self, logical: u8, name: u8, register: u8, valid: bool) {
        if look(&self.general, logical).name == name {
            let mapping = Mapping {
                name,
                register,
                valid,
            };
            put(&mut self.general, logical, mapping);
        }
    }

    /// "Drop [...]: the entry's register, then its name, are freed; the previous name returns, with register and valid bit from
    /// the physical map." The youngest is dropped, and its place becomes "all zeros".
    fn drop_youngest(&mut self) {
        let Some(last) = self.occupied().checked_sub(1) else {
            return;
        };
        let entry = self.entries[last];
        self.free_registers.free(self.held(&entry));
        self.free_name(entry.name);
        let register = look(&self.physical, entry.previous);
        let mapping = Mapping {
            name: entry.previous,
            register,
            valid: register != 0,
        };
        put(&mut self.general, entry.destination, mapping);
        self.entries[last] = Entry::default();
        self.count = last as u8;
    }

    /// Drops, "youngest first", until this many entries are left.
    pub fn drop_to(&mut self, left: usize) {
        while self.occupied() > left {
            self.drop_youngest();
        }
    }
}
