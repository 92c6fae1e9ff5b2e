use crate::{raw, Certificate, Committee, Header, Refusal, Vote};

/// What the host has found of a header: whether the id is the hash of its string, and whether
/// the author has signed the id.
#[derive(Clone, Copy, Debug, PartialEq, Eq)]
pub struct Verdicts {
    /// The id is right.
    pub id: bool,
    /// The signature is valid.
    pub signature: bool,
}

impl Header {
    /// Checks a header in this order: its id, its author, its workers, its signature.
    ///
    /// Refused: [`Refusal::InvalidHeaderId`], [`Refusal::UnknownAuthority`],
    /// [`Refusal::MalformedHeader`], [`Refusal::InvalidSignature`].
    pub fn check(&self, committee: &Committee, verdicts: Verdicts) -> Result<(), Refusal> {
        let (id, signature) = (verdicts.id.into(), verdicts.signature.into());
        let answer = raw::header_check(committee.as_bytes(), self.as_bytes(), id, signature);
        answer.result().map(drop)
    }
}

impl Vote {
    /// Checks a vote: its author, then the host's verdict of its signature.
    ///
    /// Refused: [`Refusal::UnknownAuthority`], [`Refusal::InvalidSignature`].
    pub fn check(&self, committee: &Committee, signature: bool) -> Result<(), Refusal> {
        let answer = raw::vote_check(committee.as_bytes(), self.as_bytes(), signature.into());
        answer.result().map(drop)
    }
}

impl Certificate {
    /// Checks a certificate: its header, its voters one by one, their stake, and the host's
    /// verdict of their signatures.
    ///
    /// Refused as a header is, then: [`Refusal::AuthorityReuse`] before
    /// [`Refusal::UnknownAuthority`] for each voter, [`Refusal::CertificateRequiresQuorum`],
    /// [`Refusal::InvalidSignature`].
    pub fn check(
        &self,
        committee: &Committee,
        verdicts: Verdicts,
        votes: bool,
    ) -> Result<(), Refusal> {
        let (id, signature) = (verdicts.id.into(), verdicts.signature.into());
        let members = committee.as_bytes();
        let answer = raw::certificate_check(members, self.as_bytes(), id, signature, votes.into());
        answer.result().map(drop)
    }
}
