// Stands before the steps, so that it works while a long page is still coming in: what is shown is
// a rule of style, which holds for a step as soon as it is there.
(function () {
  "use strict";
  var slider = document.getElementById("slider");
  var where = document.getElementById("where");
  var rule = document.head.appendChild(document.createElement("style"));
  var first = Number(slider.min), last = Number(slider.max), now = first;

  function show(number) {
    now = Math.min(Math.max(number, first), last);
    rule.textContent = "@media screen { .step:not(#step-" + now + ") { display: none; } }";
    slider.value = now;
    where.textContent = "Step " + now + " of " + last;
    disable(["first", "back"], now === first);
    disable(["next", "last"], now === last);
  }

  function disable(ids, off) {
    ids.forEach(function (id) { document.getElementById(id).disabled = off; });
  }

  function go(number) {
    show(number);
    history.replaceState(null, "", "#step-" + now);
  }

  function fromLink() {
    var found = /^#step-([0-9]+)$/.exec(location.hash);
    show(found ? Number(found[1]) : first);
  }

  function press(id, target) {
    document.getElementById(id).addEventListener("click", function () { go(target()); });
  }

  // Whether arrow keys move a drawing that is wider than its box.
  function scrolls(target) {
    var box = target.closest(".scroll");
    return box ? box.scrollWidth > box.clientWidth : false;
  }

  press("first", function () { return first; });
  press("back", function () { return now - 1; });
  press("next", function () { return now + 1; });
  press("last", function () { return last; });
  slider.addEventListener("input", function () { go(Number(slider.value)); });
  window.addEventListener("hashchange", fromLink);
  document.addEventListener("keydown", function (event) {
    var targets = { ArrowLeft: now - 1, ArrowRight: now + 1, Home: first, End: last };
    if (!(event.key in targets) || event.target === slider || scrolls(event.target)) { return; }
    if (event.altKey || event.ctrlKey || event.metaKey || event.shiftKey) { return; }
    event.preventDefault();
    go(targets[event.key]);
  });
  document.documentElement.classList.add("stepping");
  fromLink();
}());
