//! Finished sections that are lifted, since their mark was destroyed, and levelled anew.

use crate::caller::Caller;
use crate::plain::Call;

impl Caller<'_> {
    /// Whether a mark is destroyed now.
    fn mark_destroyed(&mut self) -> bool {
        self.style.lifts != 0 && self.random.chance(1, self.style.lifts)
    }

    /// Levels a section until its mark lasts, on the same number each time; now and then sections before it are lifted, too.
    /// Returns whether the section stands.
    pub fn lasting_section(&mut self, number: i64, stations: usize, shuts_loop: bool) -> bool {
        let mut stands = self.section(number, stations, shuts_loop);
        while stands && self.mark_destroyed() {
            self.lift();
            stands = self.section(number, stations, shuts_loop);
        }
        stands
    }

    /// After a closing that is refused the end of the line may be levelled anew.
    pub fn level_the_end_anew(&mut self) {
        if self.mark_destroyed() {
            self.lift();
            let number = self.new_number();
            self.section(number, 2, false);
        }
    }

    /// Mostly one section, now and then one more than stand.
    fn lift(&mut self) {
        let all = self.reading.sections.len() + 1;
        for _ in 0..*self.random.pick(&[1, 1, 1, 1, 1, 2, 2, 3, all]) {
            self.put(Call::LiftSection);
        }
    }
}
