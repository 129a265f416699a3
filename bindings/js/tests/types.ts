// A program that uses the types: tsc compiles it, and each marked line must be refused.
import * as gt from "../src/index.js";

const AID: Uint8Array = gt.fromHex("A0000000031010");
const card = new gt.Card(new Map([[AID, new Map([[0x5F20, AID]])]]), { locked: [[AID, 0x5F20]] });
const own = new gt.OwnCard({
    takesData: (header) => header[1] === 0xD6,
    carryOut: ({ data, le }) => (le > 0 ? [0x9000, data] : [0x6700]),
});

export async function talk(): Promise<string> {
    const terminal = new gt.Terminal({ limit: 100 });
    const answer = await terminal.run((it) => card.tpdu(it), new gt.Select(AID));
    const end = new gt.T1(async (data, waits) => (waits > 1 ? null : own.block(data)));
    await terminal.run(end, new gt.Send(AID));
    const due: gt.Due | null = terminal.tpdu();
    const value: Uint8Array | undefined = answer.throwForStatus().object(0x5F20)?.value;
    const t1: number = new gt.Atr(AID).t1.bwtCycles;
    const error: gt.GalliumtoadError = new gt.BlockError(gt.Code.ABORTED, gt.Outcome.IN_PART);
    terminal.close();
    return `${answer.status + 1} ${due?.most} ${value} ${t1} ${error.codeName} ${gt.kind}`;
}

// @ts-expect-error: digits are no bytes
card.tpdu("00A4");
// @ts-expect-error: a status is a number
new gt.OwnCard({ takesData: () => true, carryOut: () => ["9000"] });
// @ts-expect-error: a get has a tag
new gt.Get(AID);
// @ts-expect-error: nobody sets a status
new gt.Answer(0x9000, AID).status = 1;
// @ts-expect-error: a card carries out nothing by itself
card.run();
// @ts-expect-error: the application says whether data follow
new gt.OwnCard({ carryOut: () => [0x9000] });
