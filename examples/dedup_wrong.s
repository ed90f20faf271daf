@ The de-duplicator with its highest words compared by SUBS in place of SBCS: see `arrive` in dedup.s.
        .set    WRONG, 1
        .include "dedup.s"
