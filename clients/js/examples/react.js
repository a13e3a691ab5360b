// A hook for React (18 or newer): the rows of a relation as they change. React is handed in, so that nothing is depended on.
//
//   const useLive = makeUseLive(React);
//   const {rows, total, state} = useLive(db, "tickets", {where: {open: true}, order: "-id"});
import {text} from "../viewd.js";

const WAITING = {rows: [], total: 0, state: "waiting", why: null};

/** The hook. It asks anew where the relation, the order, the limit or the values of `where` are other; a function is kept as it was first. */
export function makeUseLive({useCallback, useRef, useSyncExternalStore}) {
  return function useLive(db, on, how = {}) {
    const shown = useRef(WAITING);
    const subscribe = useCallback((listener) => {
      const live = db.live(on, how);
      const show = () => {
        shown.current = {rows: live.rows, total: live.total, state: live.state, why: live.why};
        listener();
      };
      show();
      live.subscribe(show);
      return () => live.close();
    }, [db, on, text(how)]);
    return useSyncExternalStore(subscribe, () => shown.current, () => WAITING);
  };
}
