//! The twin behind the probe's protocol, each forecast held, by note 10 of document 02, to a commit of a copy.
use model::probe::Probe;

/// Torn bytes of which there are enough for either part.
const TORN: [u8; 2112] = [0x5A; 2112];

/// The twin, whose forecasts are compared here.
pub struct Forecaster(Probe);

impl Forecaster {
    /// The probe's start.
    pub fn new() -> Forecaster {
        Forecaster(Probe::new())
    }

    /// The image lent.
    pub fn image(&self) -> &[u8] {
        self.0.image()
    }

    /// The reply to a line.
    pub fn line(&mut self, line: &[u8]) -> String {
        let own = self.0.line(line);
        if line != b"09" {
            return own;
        }
        let (mut state, mut image) = (self.0.state().clone(), self.0.image().to_vec());
        let told = state.commit(&mut image, &TORN[..self.0.state().geometry.page()], u32::MAX);
        let reply = format!("{:02X}{:08X}{:08X}{:08X}", told.refusal, told.counts.programs, told.counts.marks, told.counts.erases);
        assert_eq!(own, reply, "the twin's forecast and a commit of a copy");
        own
    }
}
