//! The open branches and the temporary components written on every way.

use crate::components::Temporaries;
use crate::opcodes::Flow;
use crate::order::{when, Faults, EIF, ELS, OPENER};

/// How many branches may be open at once.
pub const MAX_NESTING: usize = 16;

/// Where a program stands between two tokens.
///
/// `written` holds the components that every way to this place has written.
/// A component that some way lacks is missing from it, so an unwritten read
/// is one bit test, whatever the number of ways.
pub(crate) struct Nesting {
    written: Temporaries,
    /// Which of opener, els and eif may not stand here.
    misplaced: Faults,
    depth: usize,
    branches: [Branch; MAX_NESTING],
}

#[derive(Clone, Copy)]
struct Branch {
    /// Token number of the opener.
    opener: usize,
    /// Whether the branch is in its second block.
    in_second: bool,
    /// What is written on the ways that go round the current block: at the
    /// opener while in the first block, after the first block while in the
    /// second.
    other_ways: Temporaries,
}

impl Nesting {
    pub(crate) fn new() -> Self {
        let none = Branch {
            opener: 0,
            in_second: false,
            other_ways: Temporaries::NONE,
        };
        Nesting {
            written: Temporaries::NONE,
            misplaced: ELS | EIF,
            depth: 0,
            branches: [none; MAX_NESTING],
        }
    }

    /// Which of opener, els and eif may not stand here.
    #[inline]
    pub(crate) fn misplaced(&self) -> Faults {
        self.misplaced
    }

    /// Whether every way to this place has written these components, four
    /// bits for each register from `number` on.
    #[inline]
    pub(crate) fn has_written(&self, number: u16, components: u16) -> bool {
        self.written.contain(number, components)
    }

    /// Adds what a token writes.
    #[inline]
    pub(crate) fn write(&mut self, number: u16, components: u8) {
        self.written = self.written.with(number, components);
    }

    /// Passes a token of this flow, which must not be misplaced.
    #[inline]
    pub(crate) fn pass(&mut self, flow: Flow, place: usize) {
        if flow != Flow::Plain {
            self.branch(flow, place);
        }
    }

    fn branch(&mut self, flow: Flow, place: usize) {
        match flow {
            Flow::Plain => {}
            Flow::Opener => self.open(place),
            Flow::Els => self.switch(),
            Flow::Eif => self.close(),
        }
        let innermost = self.innermost();
        self.misplaced = when(self.depth >= MAX_NESTING, OPENER)
            | when(innermost.is_none_or(|branch| branch.in_second), ELS)
            | when(innermost.is_none(), EIF);
    }

    /// The token number of the innermost opener still open.
    pub(crate) fn innermost_opener(&self) -> Option<usize> {
        self.innermost().map(|branch| branch.opener)
    }

    fn innermost(&self) -> Option<&Branch> {
        self.branches.get(self.depth.checked_sub(1)?)
    }

    fn open(&mut self, opener: usize) {
        self.branches[self.depth] = Branch {
            opener,
            in_second: false,
            other_ways: self.written,
        };
        self.depth += 1;
    }

    fn switch(&mut self) {
        let branch = &mut self.branches[self.depth - 1];
        branch.in_second = true;
        std::mem::swap(&mut branch.other_ways, &mut self.written);
    }

    fn close(&mut self) {
        self.depth -= 1;
        let other_ways = self.branches[self.depth].other_ways;
        self.written = self.written.both(other_ways);
    }
}
