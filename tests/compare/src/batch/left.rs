use crate::engine::Lent;

/// What a batch answered, and what it left of all that was lent to it, and of the numbers behind the answers.
#[derive(Clone, Debug, PartialEq, Eq)]
pub struct Left {
    pub answer: (u64, u64),
    pub lent: Lent,
    pub answers: Vec<u64>,
}

impl Left {
    /// The first difference of two, in words.
    pub fn difference(names: [&str; 2], [left, right]: [&Left; 2]) -> Option<String> {
        let lent = Lent::difference_between(names, [&left.lent, &right.lent], [left.answer, right.answer]);
        lent.or_else(|| {
            let (l, r) = (&left.answers, &right.answers);
            let place = (0..l.len()).find(|&place| l[place] != r[place])?;
            let what = format!("answers number {place} ({})", Left::answers_place(place));
            Some(format!("{what}: {} {:#x}, {} {:#x}", names[0], l[place], names[1], r[place]))
        })
    }

    fn answers_place(place: usize) -> String {
        format!("the {} of operation {}", ["number", "value"][place % 2], place / 2)
    }
}
