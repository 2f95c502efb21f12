//! What a desk knows. Requests are learnt one after another: the base with the
//! requests up to one of them is a desk, so that the worked answers of every
//! time can be run. The base with any of them is one too, so that the proved
//! desk is compared with the one that knows what it does.

/// The limits that a desk keeps.
#[derive(Clone, Copy, PartialEq, Eq, Debug)]
pub struct Limits {
    /// Symbols, and variables of each kind.
    pub kind: u16,
    /// Words of a question.
    pub question: usize,
    /// Words of a conjunction that a step leaves.
    pub result: usize,
    /// Words that the waiting conjunctions cost together.
    pub waiting: usize,
    /// Words of an answer.
    pub answer: usize,
}

impl Limits {
    /// Those of the base.
    pub const FIRST: Limits =
        Limits { kind: 32, question: 1024, result: 1024, waiting: 8192, answer: 8192 };
    /// Those of request 12.
    pub const WIDE: Limits =
        Limits { kind: 128, question: 4096, result: 4096, waiting: 16_384, answer: 16_384 };
}

/// A desk, by what it knows.
#[derive(Clone, Copy, PartialEq, Eq, Debug)]
pub struct Desk {
    pub limits: Limits,
    /// Request 3: of two literals with the same words the later goes.
    pub folds: bool,
    /// Request 5: waiting conjunctions and lines carry the number of the
    /// alternative that they come from.
    pub numbers: bool,
    /// Request 8: examples fill free blanks with the last declared symbol.
    pub placeholder: bool,
    /// Request 6: the last symbols may be unordered.
    pub shuffles: bool,
    /// Request 7: two memberships of one variable that share nothing drop the
    /// conjunction.
    pub clashes: bool,
    /// Request 11: trails and their replay.
    pub replays: bool,
}

/// The requests in the order in which the worked answers take them to be learnt.
pub const ORDER: [u8; 14] = [12, 3, 5, 8, 1, 4, 13, 6, 7, 11, 14, 9, 10, 2];

impl Desk {
    /// The desk before any request.
    pub const BASE: Desk = Desk {
        limits: Limits::FIRST,
        folds: false,
        numbers: false,
        placeholder: false,
        shuffles: false,
        clashes: false,
        replays: false,
    };

    /// The desk that knows these requests. Whatever their order, it is the same
    /// desk, since each adds something of its own.
    pub fn knowing(requests: &[u8]) -> Desk {
        requests.iter().fold(Desk::BASE, |desk, request| desk.learn(*request))
    }

    /// The desk that knows a request and all before it in the order.
    pub fn up_to(request: u8) -> Desk {
        let place = ORDER.iter().position(|known| *known == request);
        let place = place.unwrap_or_else(|| panic!("request {request} is not known"));
        Desk::knowing(&ORDER[..=place])
    }

    /// The desk that knows all requests.
    pub fn newest() -> Desk {
        Desk::knowing(&ORDER)
    }

    /// The words that a waiting conjunction costs beside its own, and that a
    /// line has before its literals.
    pub fn beside(&self) -> usize {
        1 + self.numbers as usize
    }

    fn learn(self, request: u8) -> Desk {
        match request {
            12 => Desk { limits: Limits::WIDE, ..self },
            3 => Desk { folds: true, ..self },
            5 => Desk { numbers: true, ..self },
            8 => Desk { placeholder: true, ..self },
            // The place of a mistake comes beside what came before.
            1 => self,
            // Less copying, which no caller can see.
            4 => self,
            // A table beside the first waiting conjunction, which no caller can see.
            13 => self,
            6 => Desk { shuffles: true, ..self },
            7 => Desk { clashes: true, ..self },
            11 => Desk { replays: true, ..self },
            // That the run ends is a fact about it and changes nothing.
            14 => self,
            // Calls of their own.
            9 | 10 | 2 => self,
            _ => panic!("request {request} is not known"),
        }
    }
}
