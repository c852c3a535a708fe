// What the requests ask of a packet. It is included at the end of scan_data.rs, whose private functions can be reached
// there.

impl PacketHeader {
    pub(crate) fn read_at<R: Read + Seek>(r: &mut BinaryReader<R>) -> Result<Self> {
        Self::read(r)
    }

    /// Whether the masses of the peak list are stored as f64.
    pub(crate) fn has_wide_mz(&self) -> bool {
        self.layout & 0x10000 != 0
    }
}

impl Profile {
    pub(crate) fn read_at<R: Read + Seek>(r: &mut BinaryReader<R>, layout: u32) -> Result<Self> {
        Self::read(r, layout)
    }
}

impl ScanDataPacket {
    /// A packet of which only the nodes matter. The bytes behind the last whole triple are no node.
    pub(crate) fn with_nodes(triples: &[u8]) -> Self {
        let float = |at: &[u8]| f32::from_le_bytes([at[0], at[1], at[2], at[3]]);
        let noise_nodes = triples
            .chunks_exact(12)
            .map(|node| NoiseNode {
                mz: float(&node[0..]),
                noise: float(&node[4..]),
                baseline: float(&node[8..]),
            })
            .collect();
        Self {
            header: PacketHeader {
                profile_size: 0,
                peak_list_size: 0,
                layout: 0,
                descriptor_list_size: 0,
                unknown_stream_size: 0,
                triplet_stream_size: 0,
                low_mz: 0.0,
                high_mz: 0.0,
            },
            profile: None,
            peaks: Vec::new(),
            descriptors: Vec::new(),
            resolutions: Vec::new(),
            noise_nodes,
        }
    }
}
