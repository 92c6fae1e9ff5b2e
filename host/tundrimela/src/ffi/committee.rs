//! Questions on a member list.

entries! {
    /// The number of members.
    committee = tundrimela_committee(members: &[u8]);

    /// The number of members of a setup.
    setup = tundrimela_setup(setup: &[u8]);

    /// The quorum threshold: 2T/3 + 1 for a total stake of T.
    quorum = tundrimela_quorum(members: &[u8]);

    /// The validity threshold: (T + 2)/3 for a total stake of T.
    validity = tundrimela_validity(members: &[u8]);

    /// The stake of a key; 0 for a stranger.
    stake = tundrimela_stake(members: &[u8], key: &[u8]);

    /// 1 if the key is a member's who has a worker of this id, else 0.
    worker = tundrimela_worker(members: &[u8], key: &[u8], id: u64);

    /// The place of the member that leads a round.
    leader = tundrimela_leader(members: &[u8], round: u64);
}
