// A card, and a terminal that selects its application and reads an object.
import { Card, Get, Select, Terminal, fromHex, toHex } from "../src/index.js";

const AID = fromHex("A0000000031010");
const card = new Card([[AID, [[0x5F20, fromHex("4A4F45")]]]]);
const terminal = new Terminal();
for (const operation of [new Select(AID), new Get(0x5F20)]) {
    const answer = await terminal.run((tpdu) => card.tpdu(tpdu), operation);
    console.log(answer.text, toHex(answer.data));
}
