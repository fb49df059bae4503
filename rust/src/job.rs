use crate::interface as raw;
use crate::network::Network;
use crate::refusal::Refusal;
use crate::sizes::{JOB_WORDS, MOST_FILE_BYTES, MOST_VECTORS};

/// The kind of a job file that has the vectors vector by vector: a parallel word for each vector, with a bit for each
/// net. So a bench drives them.
pub const PARALLEL: u64 = 2;
/// The kind of a job file that has the vectors net by net: their number in a byte, and then a sequential word for each
/// net, with a bit for each vector. So an archive keeps them, where nets are looked up.
pub const SEQUENTIAL: u64 = 4;

/// What a job file holds: a job of one receiver a net, receiver i on net i. No responses is an empty list.
///
/// ```
/// use fontarelga::{Job, Network, PARALLEL, SEQUENTIAL};
/// let (vectors, responses) = (vec![0, 1, 2, 4, 8], vec![4, 7, 7, 4, 12]);
/// let job = Job { network: Network::new(4), class: 4, kind: PARALLEL, vectors, responses };
/// let archived = Job { kind: SEQUENTIAL, ..job.clone() };
/// assert_eq!(Job::read(&archived.write()?)?, archived);
/// // The sequential words stand after the mark, the table, the nets body and the number of vectors.
/// let file = archived.write()?;
/// assert_eq!((file[36], &file[37..45], &file[61..69]), (5, &2u64.to_le_bytes()[..], &16u64.to_le_bytes()[..]));
/// # Ok::<(), fontarelga::Refusal>(())
/// ```
#[derive(Clone, Debug, PartialEq, Eq, Hash)]
pub struct Job {
    pub network: Network,
    /// As for [`check`](crate::check).
    pub class: u64,
    /// How the file has the vectors: [`PARALLEL`] or [`SEQUENTIAL`]. Responses are parallel words in either.
    pub kind: u64,
    /// Parallel words, whatever the kind.
    pub vectors: Vec<u64>,
    pub responses: Vec<u64>,
}

impl Job {
    /// Reads a job file.
    ///
    /// Refused: 1, 2, 3, 5, 6, 17, 20, 7, 8, and with responses 9, 10.
    ///
    /// ```
    /// use fontarelga::{Job, Network, Refusal, PARALLEL};
    /// let (vectors, responses) = (vec![0, 1, 2], vec![3, 3, 3]);
    /// let job = Job { network: Network::new(2), class: 2, kind: PARALLEL, vectors, responses };
    /// let file = job.write().unwrap();
    /// assert_eq!(Job::read(&file), Ok(job));
    /// assert_eq!(Job::read(&file[1..]), Err(Refusal(1)));
    /// ```
    pub fn read(file: &[u8]) -> Result<Job, Refusal> {
        let mut vectors = [0; MOST_VECTORS];
        let mut responses = [0; MOST_VECTORS];
        let mut job = [0; JOB_WORDS];
        Refusal::from_code(raw::read_job(file, &mut vectors, &mut responses, &mut job))?;
        let [nets, level, gate, class, kind, vector_count, response_count] = job;
        Ok(Job {
            network: Network::new(nets).with_level(level).with_gate(gate),
            class,
            kind,
            vectors: vectors[..vector_count as usize].to_vec(),
            responses: responses[..response_count as usize].to_vec(),
        })
    }

    /// The job's file, of its kind: two entries if there are no responses, else three.
    ///
    /// Refused: 2 (the kind is neither [`PARALLEL`] nor [`SEQUENTIAL`]), 5, 6, 17, 20, 7, 8, and with responses 9, 10.
    pub fn write(&self) -> Result<Vec<u8>, Refusal> {
        let mut file = [0; MOST_FILE_BYTES];
        let mut size = 0;
        Refusal::from_code(raw::write_job(
            self.kind,
            self.network,
            self.class,
            &self.vectors,
            &self.responses,
            &mut file,
            &mut size,
        ))?;
        Ok(file[..size as usize].to_vec())
    }
}
