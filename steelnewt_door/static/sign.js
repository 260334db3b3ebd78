// Asks a person's passkey for a signature over what this page shows (docs/SIGNING.md). It is the
// page's only script, and comes from the door, as the page does.
"use strict";

const WAITS = 120000; // milliseconds for a touch
const form = document.querySelector("form[data-rp]");
const told = form ? form.dataset : {};
const trouble = document.getElementById("trouble");

function bytes(text) {
  const plain = atob(text.replaceAll("-", "+").replaceAll("_", "/"));
  return Uint8Array.from(plain, it => it.charCodeAt(0));
}

function text(buffer) {
  const plain = String.fromCharCode(...new Uint8Array(buffer));
  return btoa(plain).replaceAll("+", "-").replaceAll("/", "_").replaceAll("=", "");
}

function known(ids) {
  return ids.split(" ").filter(it => it).map(it => ({ type: "public-key", id: bytes(it) }));
}

// A touch of one of these passkeys: its four parts, as a message has them
async function touched(challenge, ids) {
  const found = await navigator.credentials.get({ publicKey: {
    challenge, rpId: told.rp, allowCredentials: ids, userVerification: told.verification,
    timeout: WAITS,
  } });
  const made = found.response;
  const parts = [found.rawId, made.authenticatorData, made.clientDataJSON, made.signature];
  return parts.map(text).join(".");
}

async function sent(where, fields) {
  const answer = await fetch(where, { method: "POST", body: new URLSearchParams(fields) });
  const said = await answer.text();
  if (!answer.ok) throw new Error(said);
  return said;
}

async function sign() {
  const made = await touched(bytes(told.challenge), known(told.ids));
  const listed = told.listed ? ":" + told.listed : "";
  form.elements.signature.value = (listed ? "webauthn-list:" : "webauthn:") + made + listed;
  await sent("/sign", new FormData(form));
  form.submit();
}

async function enrol() {
  const word = form.elements.word.value.trim();
  const found = await navigator.credentials.create({ publicKey: {
    challenge: crypto.getRandomValues(new Uint8Array(32)),
    rp: { id: told.rp, name: told.site },
    user: { id: new TextEncoder().encode(told.person), name: told.person, displayName: told.person },
    pubKeyCredParams: [-7, -8, -257].map(alg => ({ type: "public-key", alg })),
    excludeCredentials: known(told.ids),
    authenticatorSelection: { userVerification: told.verification },
    attestation: "none",
    timeout: WAITS,
  } });
  // (what makes a passkey signs nothing: its first signature is over the word)
  const said = [told.site, told.person, word].join("\n");
  const asked = new TextEncoder().encode(told.purpose + "\0" + said);
  const challenge = await crypto.subtle.digest("SHA-256", asked);
  const assertion = await touched(challenge, [{ type: "public-key", id: found.rawId }]);
  const attested = text(found.response.attestationObject);
  const mark = await sent("/passkey", { word, attested, assertion });
  document.getElementById("mark").textContent = mark;
  document.getElementById("made").hidden = false;
  form.hidden = true;
}

if (form) {
  const button = form.querySelector("button");
  button.disabled = false;
  form.addEventListener("submit", async event => {
    event.preventDefault();
    trouble.hidden = button.disabled = true;
    try {
      await (told.purpose ? enrol() : sign());
    } catch (fault) {
      trouble.textContent = "Nothing was sent: " + fault.message;
      trouble.hidden = button.disabled = false;
    }
  });
}

// A person's own time beside each moment, where that is another
for (const each of document.querySelectorAll("time")) {
  const at = new Date(each.dateTime);
  const here = at.toLocaleString("sv-SE", { dateStyle: "short", timeStyle: "long" });
  if (at.getTimezoneOffset()) each.textContent += " (" + here + ")";
}
