// The contract with the desk: what `view.py` beside this folder says, as types. A test holds both together.

/** @typedef {Record<string, unknown> & {kind: string}} Gesture */

/**
 * @typedef {object} UnitNames
 * @property {string} temperature
 * @property {string} difference
 * @property {string} heat
 * @property {string} flow
 * @property {string} price
 * @property {string} cost
 */

/**
 * @typedef {object} FileNames
 * @property {string} case
 * @property {string} network
 * @property {string} saved
 * @property {string[]} offered
 */

/**
 * @typedef {object} Mark
 * @property {string} kind
 * @property {string} name
 * @property {string} field
 */

/**
 * @typedef {object} Refusal
 * @property {string} text
 * @property {Mark[]} places
 */

/**
 * @typedef {object} Judgement
 * @property {string} kind
 * @property {string} title
 * @property {string} text
 * @property {Mark[]} places
 */

/**
 * @typedef {object} ScoreView
 * @property {string} target_hot
 * @property {string} target_cold
 * @property {string} reach_hot
 * @property {string} reach_cold
 * @property {string} stands_hot
 * @property {string} stands_cold
 * @property {string} above
 * @property {[number, number, number]} bar
 * @property {number} placed
 * @property {number} left
 * @property {number} rule
 * @property {string} units
 * @property {string} cost
 * @property {string} floor
 * @property {string[]} notes
 */

/**
 * @typedef {object} StreamRow
 * @property {string} row
 * @property {string} name
 * @property {string} side
 * @property {string} supply
 * @property {string} target
 * @property {string} flow
 * @property {string} load
 * @property {string} heat
 * @property {string} contribution
 * @property {StreamRow[]} segments
 */

/**
 * @typedef {object} UtilityRow
 * @property {string} row
 * @property {string} name
 * @property {string} side
 * @property {string} level
 * @property {string} least
 * @property {string} most
 * @property {string} price
 * @property {string} contribution
 * @property {string} uses
 * @property {boolean} invented
 */

/**
 * @typedef {object} ForbidRow
 * @property {string} row
 * @property {string} hot
 * @property {string} cold
 */

/**
 * @typedef {object} CurvePicture
 * @property {[number, number][]} hot
 * @property {[number, number][]} cold
 * @property {[number, number][]} grand
 * @property {PinchMark[]} pinches
 * @property {string} hot_utility
 * @property {string} cold_utility
 * @property {number} hot_from
 * @property {number} hot_to
 * @property {number} cold_from
 * @property {number} cold_to
 * @property {string} heat_axis
 * @property {string} temperature_axis
 * @property {string} shifted_axis
 */

/**
 * @typedef {object} PinchMark
 * @property {number} heat
 * @property {number} hot
 * @property {number} cold
 * @property {number} shifted
 * @property {string} text
 */

/**
 * @typedef {object} GridRow
 * @property {string} name
 * @property {string} kind
 * @property {string} side
 * @property {number} y
 * @property {number} lanes
 * @property {number} begin
 * @property {number} end
 * @property {string} first
 * @property {string} last
 * @property {string} detail
 * @property {string} text
 */

/**
 * @typedef {object} BranchLine
 * @property {string} stream
 * @property {string} branch
 * @property {number} y
 * @property {number} begin
 * @property {number} end
 * @property {boolean} arrow
 * @property {string} label
 * @property {number} label_x
 * @property {string} kind
 */

/**
 * @typedef {object} JointLine
 * @property {string} id
 * @property {string} stream
 * @property {number} x
 * @property {number} first
 * @property {number} last
 * @property {string[]} shares
 */

/**
 * @typedef {object} ExchangerBar
 * @property {string} name
 * @property {string} kind
 * @property {string} hot
 * @property {string} cold
 * @property {string} duty
 * @property {number} hot_x
 * @property {number} hot_y
 * @property {number} cold_x
 * @property {number} cold_y
 * @property {string} where
 * @property {string} crossing
 * @property {string} fault
 * @property {string} text
 */

/**
 * @typedef {object} OpenPill
 * @property {string} id
 * @property {string} stream
 * @property {string} side
 * @property {string} duty
 * @property {string} first
 * @property {string} last
 * @property {number} x
 * @property {number} y
 * @property {string} where
 * @property {string} fault
 * @property {string} text
 */

/**
 * @typedef {object} PinchLine
 * @property {number} x
 * @property {number} begin
 * @property {number} end
 * @property {string} text
 */

/**
 * @typedef {object} GridPicture
 * @property {number} columns
 * @property {number} lanes
 * @property {number} band
 * @property {GridRow[]} rows
 * @property {BranchLine[]} lines
 * @property {JointLine[]} joints
 * @property {ExchangerBar[]} exchangers
 * @property {OpenPill[]} pieces
 * @property {PinchLine[]} pinches
 */

/**
 * @typedef {object} ExchangerRow
 * @property {string} name
 * @property {string} hot
 * @property {string} cold
 * @property {string} duty
 * @property {string} hot_in
 * @property {string} hot_out
 * @property {string} cold_in
 * @property {string} cold_out
 * @property {string} difference
 * @property {string} wanted
 * @property {string} where
 * @property {string} loss
 * @property {string} area
 * @property {string} fault
 */

/**
 * @typedef {object} StepMade
 * @property {number} id
 * @property {string} text
 * @property {boolean} present
 */

/**
 * @typedef {object} StepKept
 * @property {number} id
 * @property {string} text
 * @property {string} case
 * @property {string} network
 */

/**
 * @typedef {object} PictureLink
 * @property {string} name
 * @property {string} text
 */

/**
 * @typedef {object} Texts
 * @property {string} case
 * @property {string} network
 */

/**
 * @typedef {object} Difference
 * @property {string} text
 * @property {number} value
 * @property {number} least
 * @property {number} most
 * @property {number} step
 * @property {string} own
 */

/**
 * @typedef {object} View
 * @property {number} version
 * @property {FileNames} files
 * @property {UnitNames} units
 * @property {Difference} difference
 * @property {Judgement} verdict
 * @property {ScoreView} score
 * @property {StreamRow[]} streams
 * @property {UtilityRow[]} utilities
 * @property {ForbidRow[]} forbids
 * @property {CurvePicture | null} curves
 * @property {CurvePicture | null} curves_left
 * @property {GridPicture | null} grid
 * @property {ExchangerRow[]} exchangers
 * @property {StepMade[]} steps
 * @property {boolean} can_undo
 * @property {boolean} can_redo
 * @property {Texts} texts
 * @property {PictureLink[]} links
 * @property {string} read_only
 * @property {string} hold
 */

/**
 * @typedef {object} Offer
 * @property {string} partner
 * @property {string} kind
 * @property {string} stream
 * @property {string} duty
 * @property {string} words
 * @property {string} cost
 * @property {boolean} free
 * @property {boolean} whole
 * @property {Gesture} gesture
 */

/**
 * @typedef {object} WayLeg
 * @property {string} exchanger
 * @property {boolean} gains
 */

/**
 * @typedef {object} WayOffer
 * @property {string} id
 * @property {string} kind
 * @property {string} text
 * @property {WayLeg[]} legs
 * @property {string} least
 * @property {string} most
 * @property {string} ends
 * @property {string[]} mends
 * @property {string[]} leaves
 * @property {string} breaks
 * @property {string} first
 * @property {string} cost
 */

/**
 * @typedef {object} WaysFound
 * @property {WayOffer[]} ways
 * @property {string} more
 */

/**
 * @typedef {object} Slider
 * @property {Difference} difference
 * @property {string} target_hot
 * @property {string} target_cold
 * @property {string} pinches
 * @property {CurvePicture} curves
 * @property {string} area
 * @property {string} cost
 * @property {string} network
 */

/**
 * @typedef {object} TradeoffLine
 * @property {string[]} cells
 * @property {Gesture} gesture
 */

/**
 * @typedef {object} TradeoffTable
 * @property {string[]} headings
 * @property {TradeoffLine[]} lines
 * @property {string} proved
 */

export {};
