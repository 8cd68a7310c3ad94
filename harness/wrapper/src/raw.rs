//! The archive's functions and answers, as include/lurdempos.h has them. A slice is a pointer and a length in elements.

/// Of a table length.
#[repr(C)]
#[derive(Clone, Copy, Debug, PartialEq, Eq)]
pub struct LengthAnswer {
    pub refusal: u32,
    pub words: u32,
}

/// Of a laying out.
#[repr(C)]
#[derive(Clone, Copy, Debug, PartialEq, Eq)]
pub struct LayOutAnswer {
    pub refusal: u32,
}

/// Of a backup.
#[repr(C)]
#[derive(Clone, Copy, Debug, PartialEq, Eq)]
pub struct BackupAnswer {
    pub refusal: u32,
    pub version: u32,
}

/// Of a backup of several images: the refusal of the whole, and each image's refusal and version.
#[repr(C)]
#[derive(Clone, Copy, Debug, PartialEq, Eq)]
pub struct BackupAllAnswer {
    pub refusal: u32,
    pub refusals: [u32; 16],
    pub versions: [u32; 16],
}

/// Of a restore.
#[repr(C)]
#[derive(Clone, Copy, Debug, PartialEq, Eq)]
pub struct RestoreAnswer {
    pub refusal: u32,
    pub length: u32,
    pub hops: u32,
}

/// Of a retire.
#[repr(C)]
#[derive(Clone, Copy, Debug, PartialEq, Eq)]
pub struct RetireAnswer {
    pub refusal: u32,
    pub length: u32,
}

/// Of a listing.
#[repr(C)]
#[derive(Clone, Copy, Debug, PartialEq, Eq)]
pub struct ListingAnswer {
    pub refusal: u32,
    pub oldest: u32,
    pub newest: u32,
    pub last: u32,
}

/// Of a lookup by day.
#[repr(C)]
#[derive(Clone, Copy, Debug, PartialEq, Eq)]
pub struct VersionOnAnswer {
    pub refusal: u32,
    pub version: u32,
}

/// Of a tally.
#[repr(C)]
#[derive(Clone, Copy, Debug, PartialEq, Eq)]
pub struct TallyAnswer {
    pub refusal: u32,
    pub cells: u32,
    pub records: u32,
    pub counts: u32,
}

/// Of a bill: the sum of each till.
#[repr(C)]
#[derive(Clone, Copy, Debug, PartialEq, Eq)]
pub struct BillAnswer {
    pub refusal: u32,
    pub sums: [u32; 16],
}

/// Of a change of rights.
#[repr(C)]
#[derive(Clone, Copy, Debug, PartialEq, Eq)]
pub struct SetRightsAnswer {
    pub refusal: u32,
}

/// Of a writing of a stream.
#[repr(C)]
#[derive(Clone, Copy, Debug, PartialEq, Eq)]
pub struct WriteStreamAnswer {
    pub refusal: u32,
    pub length: u32,
}

/// Of a reading of a stream.
#[repr(C)]
#[derive(Clone, Copy, Debug, PartialEq, Eq)]
pub struct ReadStreamAnswer {
    pub refusal: u32,
    pub length: u32,
}

/// Of an offer, the first message.
#[repr(C)]
#[derive(Clone, Copy, Debug, PartialEq, Eq)]
pub struct OfferAnswer {
    pub refusal: u32,
}

/// A SHA-1: five words, the first with the first four of its 20 bytes, the highest first.
#[repr(C)]
#[derive(Clone, Copy, Debug, PartialEq, Eq)]
pub struct Digest {
    pub h0: u32,
    pub h1: u32,
    pub h2: u32,
    pub h3: u32,
    pub h4: u32,
}

/// A turn record.
#[repr(C)]
#[derive(Clone, Copy, Debug, PartialEq, Eq)]
pub struct TurnRecord {
    pub tills: u32,
    pub waiting: u32,
    pub last: u32,
}

/// Of a turn.
#[repr(C)]
#[derive(Clone, Copy, Debug, PartialEq, Eq)]
pub struct TurnAnswer {
    pub refusal: u32,
    pub served: bool,
    pub till: u32,
}

/// The answer of a turn, and the record after it.
#[repr(C)]
#[derive(Clone, Copy, Debug, PartialEq, Eq)]
pub struct TurnResult {
    pub answer: TurnAnswer,
    pub turn: TurnRecord,
}

extern "C" {
    pub fn lurdempos_table_length(
        tills: u32,
        versions: u32,
        blocks: u32,
        records: u32,
        cells: u32,
        block_bytes: u32,
        segment_blocks: u32,
        rebuild_percent: u32,
    ) -> LengthAnswer;

    pub fn lurdempos_lay_out(
        pool: *mut u8,
        pool_len: usize,
        table: *mut u32,
        table_len: usize,
        tills: u32,
        versions: u32,
        blocks: u32,
        records: u32,
        cells: u32,
        block_bytes: u32,
        segment_blocks: u32,
        rebuild_percent: u32,
    ) -> LayOutAnswer;

    pub fn lurdempos_backup(
        pool: *mut u8,
        pool_len: usize,
        table: *mut u32,
        table_len: usize,
        user: u32,
        till: u32,
        image: *const u8,
        image_len: usize,
    ) -> BackupAnswer;

    pub fn lurdempos_backup_dated(
        pool: *mut u8,
        pool_len: usize,
        table: *mut u32,
        table_len: usize,
        user: u32,
        till: u32,
        day: u32,
        image: *const u8,
        image_len: usize,
    ) -> BackupAnswer;

    pub fn lurdempos_backup_all(
        pool: *mut u8,
        pool_len: usize,
        table: *mut u32,
        table_len: usize,
        user: u32,
        tills: *const u32,
        tills_len: usize,
        lengths: *const u32,
        lengths_len: usize,
        images: *const u8,
        images_len: usize,
    ) -> BackupAllAnswer;

    pub fn lurdempos_restore(
        pool: *const u8,
        pool_len: usize,
        table: *const u32,
        table_len: usize,
        user: u32,
        till: u32,
        version: u32,
        output: *mut u8,
        output_len: usize,
    ) -> RestoreAnswer;

    pub fn lurdempos_retire(
        pool: *mut u8,
        pool_len: usize,
        table: *mut u32,
        table_len: usize,
        user: u32,
        till: u32,
        version: u32,
    ) -> RetireAnswer;

    pub fn lurdempos_listing(
        pool: *const u8,
        pool_len: usize,
        table: *const u32,
        table_len: usize,
        user: u32,
        till: u32,
    ) -> ListingAnswer;

    pub fn lurdempos_version_on(
        pool: *const u8,
        pool_len: usize,
        table: *const u32,
        table_len: usize,
        user: u32,
        till: u32,
        day: u32,
    ) -> VersionOnAnswer;

    pub fn lurdempos_tally(
        pool: *const u8,
        pool_len: usize,
        table: *const u32,
        table_len: usize,
        user: u32,
    ) -> TallyAnswer;

    pub fn lurdempos_bill(
        pool: *const u8,
        pool_len: usize,
        table: *const u32,
        table_len: usize,
        user: u32,
        price: u32,
    ) -> BillAnswer;

    pub fn lurdempos_set_rights(
        pool: *const u8,
        pool_len: usize,
        table: *mut u32,
        table_len: usize,
        user: u32,
        subject: u32,
        till: u32,
        list: bool,
        back_up: bool,
        restore: bool,
        retire: bool,
    ) -> SetRightsAnswer;

    pub fn lurdempos_write_stream(
        pool: *const u8,
        pool_len: usize,
        table: *const u32,
        table_len: usize,
        user: u32,
        till: u32,
        version: u32,
        output: *mut u8,
        output_len: usize,
    ) -> WriteStreamAnswer;

    pub fn lurdempos_read_stream(
        stream: *const u8,
        stream_len: usize,
        output: *mut u8,
        output_len: usize,
    ) -> ReadStreamAnswer;

    pub fn lurdempos_offer(
        pool: *const u8,
        pool_len: usize,
        table: *const u32,
        table_len: usize,
        user: u32,
        till: u32,
        fingerprints: *const u8,
        fingerprints_len: usize,
        marks: *mut u8,
        marks_len: usize,
    ) -> OfferAnswer;

    pub fn lurdempos_backup_sent(
        pool: *mut u8,
        pool_len: usize,
        table: *mut u32,
        table_len: usize,
        user: u32,
        till: u32,
        length: u32,
        fingerprints: *const u8,
        fingerprints_len: usize,
        marks: *const u8,
        marks_len: usize,
        segments: *const u8,
        segments_len: usize,
    ) -> BackupAnswer;

    pub fn lurdempos_sha1(message: *const u8, message_len: usize) -> Digest;

    pub fn lurdempos_turn(turn: TurnRecord) -> TurnResult;

    pub fn lurdempos_chain_backup(
        pools: *mut u8,
        pools_len: usize,
        tables: *mut u32,
        tables_len: usize,
        pool_lengths: *const u32,
        pool_lengths_len: usize,
        table_lengths: *const u32,
        table_lengths_len: usize,
        store: u32,
        limit: u32,
        user: u32,
        till: u32,
        image: *const u8,
        image_len: usize,
    ) -> BackupAnswer;

    pub fn lurdempos_chain_backup_dated(
        pools: *mut u8,
        pools_len: usize,
        tables: *mut u32,
        tables_len: usize,
        pool_lengths: *const u32,
        pool_lengths_len: usize,
        table_lengths: *const u32,
        table_lengths_len: usize,
        store: u32,
        limit: u32,
        user: u32,
        till: u32,
        day: u32,
        image: *const u8,
        image_len: usize,
    ) -> BackupAnswer;

    pub fn lurdempos_chain_backup_sent(
        pools: *mut u8,
        pools_len: usize,
        tables: *mut u32,
        tables_len: usize,
        pool_lengths: *const u32,
        pool_lengths_len: usize,
        table_lengths: *const u32,
        table_lengths_len: usize,
        store: u32,
        limit: u32,
        user: u32,
        till: u32,
        length: u32,
        fingerprints: *const u8,
        fingerprints_len: usize,
        marks: *const u8,
        marks_len: usize,
        segments: *const u8,
        segments_len: usize,
    ) -> BackupAnswer;

    pub fn lurdempos_chain_backup_all(
        pools: *mut u8,
        pools_len: usize,
        tables: *mut u32,
        tables_len: usize,
        pool_lengths: *const u32,
        pool_lengths_len: usize,
        table_lengths: *const u32,
        table_lengths_len: usize,
        store: u32,
        limit: u32,
        user: u32,
        tills: *const u32,
        tills_len: usize,
        lengths: *const u32,
        lengths_len: usize,
        images: *const u8,
        images_len: usize,
    ) -> BackupAllAnswer;

    pub fn lurdempos_chain_restore(
        pools: *const u8,
        pools_len: usize,
        tables: *const u32,
        tables_len: usize,
        pool_lengths: *const u32,
        pool_lengths_len: usize,
        table_lengths: *const u32,
        table_lengths_len: usize,
        store: u32,
        user: u32,
        till: u32,
        version: u32,
        output: *mut u8,
        output_len: usize,
    ) -> RestoreAnswer;

    pub fn lurdempos_chain_retire(
        pools: *mut u8,
        pools_len: usize,
        tables: *mut u32,
        tables_len: usize,
        pool_lengths: *const u32,
        pool_lengths_len: usize,
        table_lengths: *const u32,
        table_lengths_len: usize,
        store: u32,
        user: u32,
        till: u32,
        version: u32,
    ) -> RetireAnswer;

    pub fn lurdempos_chain_listing(
        pools: *const u8,
        pools_len: usize,
        tables: *const u32,
        tables_len: usize,
        pool_lengths: *const u32,
        pool_lengths_len: usize,
        table_lengths: *const u32,
        table_lengths_len: usize,
        store: u32,
        user: u32,
        till: u32,
    ) -> ListingAnswer;

    pub fn lurdempos_chain_version_on(
        pools: *const u8,
        pools_len: usize,
        tables: *const u32,
        tables_len: usize,
        pool_lengths: *const u32,
        pool_lengths_len: usize,
        table_lengths: *const u32,
        table_lengths_len: usize,
        store: u32,
        user: u32,
        till: u32,
        day: u32,
    ) -> VersionOnAnswer;

    pub fn lurdempos_chain_tally(
        pools: *const u8,
        pools_len: usize,
        tables: *const u32,
        tables_len: usize,
        pool_lengths: *const u32,
        pool_lengths_len: usize,
        table_lengths: *const u32,
        table_lengths_len: usize,
        store: u32,
        user: u32,
    ) -> TallyAnswer;

    pub fn lurdempos_chain_bill(
        pools: *const u8,
        pools_len: usize,
        tables: *const u32,
        tables_len: usize,
        pool_lengths: *const u32,
        pool_lengths_len: usize,
        table_lengths: *const u32,
        table_lengths_len: usize,
        store: u32,
        user: u32,
        price: u32,
    ) -> BillAnswer;

    pub fn lurdempos_chain_write_stream(
        pools: *const u8,
        pools_len: usize,
        tables: *const u32,
        tables_len: usize,
        pool_lengths: *const u32,
        pool_lengths_len: usize,
        table_lengths: *const u32,
        table_lengths_len: usize,
        store: u32,
        user: u32,
        till: u32,
        version: u32,
        output: *mut u8,
        output_len: usize,
    ) -> WriteStreamAnswer;

    pub fn lurdempos_chain_offer(
        pools: *const u8,
        pools_len: usize,
        tables: *const u32,
        tables_len: usize,
        pool_lengths: *const u32,
        pool_lengths_len: usize,
        table_lengths: *const u32,
        table_lengths_len: usize,
        store: u32,
        user: u32,
        till: u32,
        fingerprints: *const u8,
        fingerprints_len: usize,
        marks: *mut u8,
        marks_len: usize,
    ) -> OfferAnswer;

    pub fn lurdempos_chain_set_rights(
        pools: *const u8,
        pools_len: usize,
        tables: *mut u32,
        tables_len: usize,
        pool_lengths: *const u32,
        pool_lengths_len: usize,
        table_lengths: *const u32,
        table_lengths_len: usize,
        store: u32,
        user: u32,
        subject: u32,
        till: u32,
        list: bool,
        back_up: bool,
        restore: bool,
        retire: bool,
    ) -> SetRightsAnswer;
}
