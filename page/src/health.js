// Whether the program answers, and whether anything is new.

import { say } from "./parts.js";
import { renew } from "./requests.js";
import { counted } from "./numbers.js";

// The number of edits, or nothing where the program does not tell it: what else it answers is shown all the same.
export async function askHealth() {
  try {
    const edits = await renew();
    say("health", `${counted(edits, "edit")}. The program answers.`);
    return edits;
  } catch (error) {
    return void say("health", error.message, true);
  }
}
