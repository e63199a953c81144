// What the types must take, and what they must refuse: tsc --noEmit. (It isn't run.)
import { load, Refused, Gone, G64, ATN, KERNAL, NEVER, type Drive, type Library } from "../yellowadze1541.mjs";

const y1541: Library = await load(fetch("yellowadze1541.wasm"));
const disk: Uint8Array = y1541.create(G64, "MY DISK", "AB");
const image = y1541.put(disk, "HELLO,P,W", Uint8Array.of(1, 8, 65));
const drive: Drive = y1541.open(image, { device: 8, pace: KERNAL, isProtected: true, direct: true });
drive.lines(1000, true, false, false);
const reaction = drive.due(1020);
if (reaction) console.log(reaction.moment, reaction.dataChanged);
if (drive.nextDue() === NEVER) console.log(drive.writes() > 0n);
try {
  y1541.check(image);
} catch (it) {
  if (it instanceof Refused) console.log(it.number, it.place?.track);
  else if (it instanceof Gone) console.log(it.cause);
}
const played = y1541.play(image, [{ moment: 1, line: ATN, low: true }], 100);
const { image: after, status } = y1541.commandStatus(y1541.putAll(disk, [{ text: "A,P,W", data: "x" }]), "S0:A");
console.log(after?.length, status.line.length, y1541.copy(image, 0, "B").length);
console.log(played.events[0].who, y1541.entry(image, 0)?.name);

// @ts-expect-error: no image
y1541.open("x");
// @ts-expect-error: a list of changes is played without direct access
y1541.play(image, [], 100, { direct: true });
// @ts-expect-error: no form
y1541.create(3, "X", "AB");
// @ts-expect-error: it may be null
y1541.entry(image, 0).name;
// @ts-expect-error: it may be null
y1541.commandStatus(image, "V0").image.length;
// @ts-expect-error: no such call
drive.list();
