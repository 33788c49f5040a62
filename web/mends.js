// Words for a refused program: the change that has it accepted, or that its reason asks for.
"use strict";

// The table's advice for a refusal, as a sentence.
function advice_of(status) {
    const advice = (REFUSALS[status]?.[1] ?? "").replaceAll("`", "");
    return advice && `${advice[0].toUpperCase()}${advice.slice(1)}.`;
}

// The need with which a program is accepted that is refused for want of one, or nothing.
function need_of(status, explanation, code) {
    const told = status === 33 ? /^least need here: ([0-9]+)$/m.exec(explanation) : null;
    const need = told ? Number(told[1]) : status === 38 ? 65536 : null;
    return need !== null && library.verify(need, code).status === 0 ? need : null;
}

// Tells what to change, if that is known; and offers to set the need where that is all.
function tell_change(told = "", need = null) {
    at("mend").hidden = !told;
    at("mend_told").textContent = told;
    at("mend_it").hidden = need === null;
    at("mend_it").textContent = need === null ? "" : `Set the need to ${need}`;
    at("mend_it").onclick = () => {
        at("need").value = String(need);
        at("examples").value = "";
        do_verify();
        at("need").focus();
    };
}

function tell_mend(status, need = null) {
    if (need === null) tell_change(advice_of(status));
    else tell_change(`To have it accepted, change the need from ${at("need").value.trim()} to ${need}.`, need);
}
