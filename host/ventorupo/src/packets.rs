//! Whole packets: they arrive with their header, are kept in packet memories that are
//! lent to each call, and are shown where they lie.

use crate::{calls, done, EntryId, Refusal, Switch};

impl<M: AsRef<[u8]> + AsMut<[u8]>> Switch<M> {
    /// A whole packet, whose first ten bytes are its header, arrives at a port of a
    /// switch that keeps packets. It does what [`Switch::arrive`] does with that header,
    /// and stores the packet at the start of the node's slot of `packets`, the port's
    /// packet memory ([`Settings::packet_memory`](crate::Settings::packet_memory)); the
    /// rest of that slot and all other slots stay. That another port's memory is lent
    /// can't be noticed, and then [`Switch::show`] shows what stands in the right one.
    ///
    /// Refused 24 on a switch that keeps none, 17 if the memory is of another size, 16
    /// if the packet is under ten bytes or not as long as its header says; then as an
    /// arrival. After a refusal the packet memory is as it was.
    ///
    /// ```
    /// use ventorupo::{EntryId, Header, Refusal, Settings, Switch, SLOT_BYTES};
    ///
    /// let settings = Settings::ten_bytes().nodes(2).with_packets();
    /// let mut switch = Switch::setup([0; 6720], settings)?;
    /// let mut packets = vec![0; settings.packet_memory()];
    /// let header = Header::new().source(3).length(20);
    /// let mut packet = settings.form().write(&header)?.to_vec();
    /// packet.extend(b"ten bytes.");
    /// // Node 0 of port 3 takes it, then node 1 another.
    /// assert_eq!(switch.arrive_packet(&mut packets, 3, &packet), Ok(EntryId(6144)));
    /// assert_eq!(switch.arrive_packet(&mut packets, 3, &packet), Ok(EntryId(6145)));
    /// assert_eq!(packets[SLOT_BYTES..][..20], packet);
    /// // A byte is missing.
    /// let short = switch.arrive_packet(&mut packets, 3, &packet[..19]);
    /// assert_eq!(short, Err(Refusal::PacketBytes));
    /// // A header alone is of the other kind.
    /// assert_eq!(switch.arrive(3, &packet[..10]), Err(Refusal::OtherKind));
    /// # Ok::<(), Refusal>(())
    /// ```
    pub fn arrive_packet(
        &mut self,
        packets: &mut [u8],
        port: u32,
        packet: &[u8],
    ) -> Result<EntryId, Refusal> {
        let mut entry = 0;
        done(calls::arrive_packet(
            self.memory.as_mut(),
            packets,
            port,
            packet,
            &mut entry,
        ))?;
        Ok(EntryId(entry))
    }
}

impl<M: AsRef<[u8]>> Switch<M> {
    /// The oldest packet in the prefetch slots of a port's queue, which is the next
    /// that a turn sends of that queue: a part of its owner's packet memory, never a
    /// copy, as long as its header says. All four ports' memories are lent, from port
    /// 0's on. Nothing changes.
    ///
    /// Refused 24 on a switch that keeps no packets, 17 if a memory is of another size,
    /// 4, 5, and 12 if there is nothing in the slots, also where egress has packets.
    ///
    /// ```
    /// use ventorupo::{Header, Refusal, Settings, Switch, SLOT_BYTES};
    ///
    /// let settings = Settings::ten_bytes().nodes(2).with_packets();
    /// let mut switch = Switch::setup([0; 6720], settings)?;
    /// let mut packets = [(); 4].map(|()| vec![0; settings.packet_memory()]);
    /// // From port 3 to port 1 in queue 5.
    /// switch.map(2, 1)?;
    /// let header = Header::new().destination(2).source(3).queue(5).length(20);
    /// let mut packet = settings.form().write(&header)?.to_vec();
    /// packet.extend(b"ten bytes.");
    /// switch.arrive_packet(&mut packets[3], 3, &packet)?;
    /// switch.stitch(3)?;
    /// let [p0, p1, p2, p3] = &packets;
    /// let lent = [&p0[..], p1, p2, p3];
    /// assert_eq!(switch.show(lent, 1, 5), Err(Refusal::NothingThere));
    /// switch.prefetch(1, 5)?;
    /// let shown = switch.show(lent, 1, 5)?;
    /// assert_eq!(shown, packet);
    /// // It lies where it was stored, in the slot of node 0.
    /// assert!(std::ptr::eq(shown, &p3[..20]));
    /// # Ok::<(), Refusal>(())
    /// ```
    pub fn show<'a>(
        &self,
        packets: [&'a [u8]; 4],
        port: u32,
        queue: u32,
    ) -> Result<&'a [u8], Refusal> {
        self.view().show(packets, port, queue)
    }
}

/// See [`Switch::show`].
pub(crate) fn show<'a>(
    memory: &[u8],
    packets: [&'a [u8]; 4],
    port: u32,
    queue: u32,
) -> Result<&'a [u8], Refusal> {
    let (mut owner, mut at, mut length) = (0, 0, 0);
    done(calls::show(
        memory,
        packets,
        port,
        queue,
        &mut owner,
        &mut at,
        &mut length,
    ))?;
    let shown = part(packets, owner, at, length);
    Ok(shown.expect("the library shows a part of its owner's packet memory"))
}

/// So many bytes of a memory, if there are so many.
fn part(packets: [&[u8]; 4], owner: u32, at: u64, length: u32) -> Option<&[u8]> {
    let from = packets
        .get(owner as usize)?
        .get(usize::try_from(at).ok()?..)?;
    from.get(..length as usize)
}
