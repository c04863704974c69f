//! What the repetitions of one side come to, in nanoseconds per event.

/// The nanoseconds of each slice of the events, for each repetition.
pub struct Figures {
    pub events: usize,
    pub repetitions: Vec<Vec<f64>>,
}

impl Figures {
    pub fn new(events: usize) -> Figures {
        Figures {
            events,
            repetitions: Vec::new(),
        }
    }

    /// The fastest of all repetitions, slice by slice: what else runs on the machine seldom hits the
    /// same slice every time.
    pub fn fastest(&self) -> f64 {
        self.fastest_of(&self.repetitions)
    }

    /// The same from the first half of the repetitions alone, and from the second.
    pub fn halves(&self) -> [f64; 2] {
        let (first, second) = self.repetitions.split_at(self.repetitions.len() / 2);
        [self.fastest_of(first), self.fastest_of(second)]
    }

    fn fastest_of(&self, repetitions: &[Vec<f64>]) -> f64 {
        let times = |slice: usize| repetitions.iter().map(move |times| times[slice]);
        let slices = 0..repetitions[0].len();
        let sum: f64 = slices
            .map(|slice| times(slice).fold(f64::MAX, f64::min))
            .sum();
        sum / self.events as f64
    }

    pub fn median(&self) -> f64 {
        let whole = self.whole();
        let middle = whole.len() / 2;
        match whole.len() % 2 {
            1 => whole[middle],
            _ => (whole[middle - 1] + whole[middle]) / 2.0,
        }
    }

    /// How much longer the slowest repetition took than the fastest, in percent.
    pub fn spread(&self) -> f64 {
        let whole = self.whole();
        100.0 * (whole[whole.len() - 1] / whole[0] - 1.0)
    }

    /// Whole repetitions, the fastest first.
    fn whole(&self) -> Vec<f64> {
        let sum = |times: &Vec<f64>| times.iter().sum::<f64>() / self.events as f64;
        let mut whole: Vec<f64> = self.repetitions.iter().map(sum).collect();
        whole.sort_by(f64::total_cmp);
        whole
    }
}
